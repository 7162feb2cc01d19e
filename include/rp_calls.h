/* What the header of `rp_console bind --c` is made of: a call of an operation of a replicated object, by the kind and
 * the index of the operation, and the type of its result. */
#ifndef RP_CALLS_H
#define RP_CALLS_H

#include "rp.h"

#ifdef __cplusplus
extern "C" {
#endif

/* Who makes calls. `call` makes a call of an operation (rp_operation) of an object, as rp_task_operation takes them,
 * and waits for its reply (rp_reply). `context` is handed to it: a task's stub, say, with its link. */
typedef struct rp_caller {
  rp_call_reply (*call)(void *context, uint8_t object, uint8_t operation, uint8_t index, int64_t argument);
  void *context;
} rp_caller;

/* Each function below returns the kind of the reply, by rp_reply; `*result` is written by RP_REPLY_VALUE and
 * RP_REPLY_TRUTH alone. A result that is of no use has the address NULL. */
static inline uint8_t rp_call_value(const rp_caller *caller, uint8_t object, uint8_t operation, uint8_t index,
                                    int64_t argument, int64_t *result) {
  rp_call_reply reply = caller->call(caller->context, object, operation, index, argument);
  if (result != NULL && (reply.kind == RP_REPLY_VALUE || reply.kind == RP_REPLY_TRUTH)) {
    *result = reply.value;
  }
  return reply.kind;
}

static inline uint8_t rp_call_value_function(const rp_caller *caller, uint8_t object, uint8_t index,
                                             int64_t argument, int64_t *result) {
  return rp_call_value(caller, object, RP_FUNCTION, index, argument, result);
}

static inline uint8_t rp_call_truth_function(const rp_caller *caller, uint8_t object, uint8_t index,
                                             int64_t argument, bool *result) {
  int64_t value = 0;
  uint8_t kind = rp_call_value(caller, object, RP_FUNCTION, index, argument, &value);
  if (result != NULL && (kind == RP_REPLY_VALUE || kind == RP_REPLY_TRUTH)) {
    *result = value != 0;
  }
  return kind;
}

static inline uint8_t rp_call_procedure(const rp_caller *caller, uint8_t object, uint8_t index, int64_t argument,
                                        int64_t *result) {
  return rp_call_value(caller, object, RP_PROCEDURE, index, argument, result);
}

static inline uint8_t rp_call_entry(const rp_caller *caller, uint8_t object, uint8_t index, int64_t argument,
                                    int64_t *result) {
  return rp_call_value(caller, object, RP_ENTRY, index, argument, result);
}

#ifdef __cplusplus
}
#endif

#endif

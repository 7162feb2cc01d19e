/* The protected objects of a deck: do not edit. Written by `rp_console bind --c`. */
#ifndef RP_DECK_OBJECTS_H
#define RP_DECK_OBJECTS_H

#include "rp_calls.h"

/* The numbers of the tasks. */
enum {
  task__a = 1,
  task__b = 2,
  task__c = 3,
  task__d = 4,
};

/* The object reg. */
static inline uint8_t reg__calls(const rp_caller *caller, int64_t argument, int64_t *result) {
  return rp_call_value_function(caller, 1, 1, argument, result);
}
static inline uint8_t reg__swap(const rp_caller *caller, int64_t argument, int64_t *result) {
  return rp_call_procedure(caller, 1, 1, argument, result);
}

#endif

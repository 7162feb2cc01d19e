/* What C and Ada call of the static library crates/rp_c/out/librp_c.a.
 *
 * Bytes in, bytes out: no call keeps a pointer that it is given, none starts a thread or reads a file.
 * Two threads may be in two calls at once, but not with one handle.
 *
 * A null pointer is refused by RP_NULL, and nothing has changed; rp_node_close and rp_task_close do
 * nothing then. A pointer to bytes or to a buffer may be null if its length is 0. The inline functions
 * of this header look for that before they call the library's, which take no null.
 *
 * What a caller owes, for every call:
 * - A pointer that is not null is that of as many bytes as are passed with it, or of one value.
 * - A buffer that is written is not read or written by anybody else during the call, and overlaps no
 *   other argument.
 * - malloc, realloc and free are those of one allocator, and align a block to each power of two up to
 *   16 that divides its size. No call is made from a signal handler.
 * - A handle (rp_node, rp_task) is all zero before it is opened: RP_CLOSED. Then the caller changes no
 *   byte of it and uses no copy of it; it may be moved, and it may pass to another thread between two calls,
 *   if that thread sees what the first one wrote (a lock, a queue, a join). The library keeps nothing but
 *   what handles keep, and nothing of a thread.
 *
 * Link with liblibc_c.a of the Rattle kit, /opt/rattle/c. */
#ifndef RP_H
#define RP_H

#include <stdbool.h>
#include <stddef.h>
#include <stdint.h>
#include <string.h>

#ifdef __cplusplus
extern "C" {
#endif

/* How a call ends. The numbers below 64 are those of the faults that the program prints. */
enum rp_status {
  RP_DONE = 0,
  RP_OUT_OF_MEMORY = 1,  /* there was no memory for the call; nothing has changed */
  RP_BAD_PACKET = 4,     /* the bytes are no packet */
  RP_BALLOTS_SPENT = 6,  /* the node has no ballot left */
  RP_LOG_FULL = 7,       /* a lead is at the end of the log: its position, or one of its range, is above it;
                          * or it has none, and at most 64 positions are left, none of them free */
  RP_TASK_BUSY = 9,      /* the task's last call has no reply yet */
  RP_NUMBERS_SPENT = 10, /* the task made its last call */
  RP_BAD_DECK = 11,      /* the deck is bad */
  RP_BAD_CONFIG = 12,    /* the deck has no such node, or a node is to ask itself, or no deck has such a task */
  RP_IO = 13,            /* the deck has more than 1,048,576 bytes; nothing has changed */
  RP_SHORT_ANSWER = 64,  /* the answer is longer than its buffer; nothing but its length is written */
  RP_BAD_REQUEST = 65,   /* the bytes are no request; nothing has changed */
  RP_NO_OBJECTS = 66,    /* the deck has such a node, but declares a tally, and no objects */
  RP_LONG_ANSWER = 67,   /* the step was made, and its answer is longer than the buffer */
  RP_WRONG_HANDLE = 68,  /* the handle is closed, or of the other kind; nothing has changed */
  RP_NULL = 69,          /* a pointer is null; nothing has changed */
  RP_TOO_FAR = 70,       /* a lead is in the log, but 64 or more above the first unlearned position: lead at
                          * that one, or wait for it; nothing has changed */
  RP_WRONG_DEVICE = 71,  /* the device begins with no header, or with another node's or deck's; nothing has
                          * changed */
  RP_NOT_ENDED = 72,     /* positions of the log are left: there is no next deck yet; nothing has changed */
  RP_AT_WORK = 73        /* the log has ended, and a call waits or a timing event is set: there is no next
                          * deck; nothing has changed */
};

/* Why bytes are no packet. If they are not one, exactly one of these applies. */
enum rp_packet_reason {
  RP_PACKET_SHORT = 1,   /* right fields, and then fewer bytes than the next field has */
  RP_PACKET_LONG = 2,    /* a packet, and then one byte or more */
  RP_PACKET_VERSION = 3, /* the first byte is no known version */
  RP_PACKET_KIND = 4,    /* the second byte is no known kind */
  RP_PACKET_FIELD = 5    /* right fields, and then one that breaks its rule */
};

/* Writes into *length how many bytes the packet has that the `count` bytes begin with; any bytes may
 * follow it. RP_BAD_PACKET: they begin with none, and *length is as it was. It takes no memory. */
uint8_t rp_packet_length(const uint8_t *bytes, size_t count, size_t *length);

/* Whether all of the `count` bytes are one packet. RP_BAD_PACKET: they are not, and *reason is one of
 * rp_packet_reason. RP_OUT_OF_MEMORY only for a report to an audit or a promise for a range. Otherwise
 * *reason is as it was. */
uint8_t rp_packet_check(const uint8_t *bytes, size_t count, uint8_t *reason);

/* Runs the script of a deck, as `rp_console script` does, and with `traced` as `script --trace`.
 *
 * RP_DONE: the first *used bytes of `answer` are what the program prints on standard output.
 * RP_BAD_DECK: the first *used bytes of `answer` are the line that says where and why the deck is bad.
 * RP_SHORT_ANSWER: the answer has *used bytes, more than `size`, and `answer` is as it was. Call again
 *   with a buffer of *used bytes: the same deck has the same answer.
 * RP_OUT_OF_MEMORY, RP_IO: `answer` and *used are as they were. */
uint8_t rp_run_deck(const uint8_t *deck, size_t count, bool traced, uint8_t *answer, size_t size,
                    size_t *used);

/* ---- Nodes and tasks by handle
 *
 * Nodes agree, and replies are those of one order, if their callers keep three rules (docs/C.md, proved):
 * 1. A device is given what steps give for it, in order, and a packet of a step is handed on only after all
 *    that the node's steps gave up to that step is synced: else a node that stops forgets what it said, and
 *    two actions may be decided at one position. Several steps may share one sync.
 * 2. A node or a task receives packets that nodes and tasks of the same deck handed on, byte for byte, early,
 *    late, again or never: a packet that nobody sent may tell of a vote that nobody cast.
 * 3. A node has one open handle at a time, opened over its own device, and a task is opened once: two handles
 *    of one node vote twice, and a task that counts from 1 again gets the last old
 *    reply, or none for ever (rp_task_open_after: what a task that restarts owes, outside of what is proved).
 * None of them can be left out (docs/C.md, proved): for each there are callers who break it alone, and two
 * nodes that have applied different actions then.
 *
 * The caller keeps the handle. The node or the task that it keeps is the library's, from rp_node_open or
 * rp_task_open until the handle is closed or opened again. A handle that is never closed leaks it. */

/* The value of a handle that is closed. */
#define RP_CLOSED {false, NULL}

/* How long an answer is. */
typedef struct rp_lengths {
  size_t stored; /* how many of its first bytes go to the node's device; 0 but for a step */
  size_t used;   /* how many bytes it has, or, where it does not fit, how many the buffer needs */
} rp_lengths;

/* The parties of a packet, by its byte at 3, which says to whom it is: node k is k, task t is
 * RP_TASK_PARTY + t. */
enum rp_party { RP_TASK_PARTY = 16, RP_AUDIT_PARTY = 32 };

/* Where bytes are: also where there are none, an address that is not null. */
static inline const uint8_t *rp_bytes_at(const uint8_t *bytes, size_t count) {
  static const uint8_t none = 0;
  return bytes == NULL && count == 0 ? &none : bytes;
}

static inline uint8_t *rp_buffer_at(uint8_t *buffer, size_t size) {
  static uint8_t none = 0;
  return buffer == NULL && size == 0 ? &none : buffer;
}

/* Which of the two a handle keeps. */
enum rp_handle_kind { RP_NODE_HANDLE = 1, RP_TASK_HANDLE = 2 };

/* The library's functions for both kinds, of which rp_node_call, rp_task_call, rp_node_close and
 * rp_task_close are made. A `kind` that is none of rp_handle_kind is refused by RP_WRONG_HANDLE. */
uint8_t rp_handle_call(uint8_t kind, void *handle, const uint8_t *request, size_t count, uint8_t *answer,
                       size_t size, rp_lengths *lengths);

void rp_handle_close(void *handle);

/* The same, unless a pointer is null. */
static inline uint8_t rp_handle_call_guarded(uint8_t kind, void *handle, const uint8_t *request,
                                             size_t count, uint8_t *answer, size_t size,
                                             rp_lengths *lengths) {
  request = rp_bytes_at(request, count);
  answer = rp_buffer_at(answer, size);
  if (handle == NULL || request == NULL || answer == NULL || lengths == NULL) {
    return RP_NULL;
  }
  return rp_handle_call(kind, handle, request, count, answer, size, lengths);
}

static inline void rp_handle_close_guarded(void *handle) {
  if (handle != NULL) {
    rp_handle_close(handle);
  }
}

/* ---- A node, which runs over a copy of its device
 *
 * The caller keeps the device, a run of bytes that survives a stop. What the caller owes:
 * - The answer of a step is first the bytes of its record, `stored` of them, and then its packets, one
 *   after another (rp_node_step says where each ends, as rp_packet_length does). The caller puts the
 *   record at the end of the device and syncs it BEFORE it sends a packet of that answer. A packet that
 *   is sent first may break the agreement: after a stop the node does not know what it said.
 * - A record that could not be stored: no packet of that answer is sent, and the node is closed. It is
 *   opened again from the bytes that the device has.
 * - No two handles run over one device at a time.
 * Packets may be lost, repeated, reordered or delayed by anybody, and they may not be altered. */
typedef struct rp_node {
  bool open;
  uint8_t *at;
} rp_node;

/* What a node found on its device; or why its deck is bad.
 *
 * Records have no checksum: a bit that is changed within one may make another record of it, and the device
 * opens whole. What is found is a record that is none. A caller whose device may change bits keeps a checksum
 * of its own around what a step gives, and gives rp_node_open only bytes that pass it. */
typedef struct rp_found {
  size_t records; /* how many records the device holds */
  size_t kept;    /* how many bytes they have */
  uint8_t tail;   /* what is after them, by rp_tail */
  uint8_t reason; /* why a bad deck is bad, by rp_deck_reason; else 0 */
  uint32_t line;  /* the first bad line of a bad deck, from 1; else 0 */
} rp_found;

/* What is after the whole records of a device. */
enum rp_tail {
  RP_TAIL_NOTHING = 0,
  RP_TAIL_TORN = 1,   /* the beginning of a record, as a stop leaves it: truncate the device to `kept` bytes */
  RP_TAIL_DAMAGED = 2 /* bytes that begin no record, and no stop leaves: records after them would be lost by
                       * a truncation. Close the node, and do not use the device */
};

/* Why a line of a deck is bad: docs/DECK.md, "Bad decks", says what each means. */
enum rp_deck_reason {
  RP_DECK_NODES_EXPECTED = 1,
  RP_DECK_UNKNOWN_WORD = 2,
  RP_DECK_WRONG_NUMBER_OF_WORDS = 3,
  RP_DECK_BAD_NUMBER = 4,
  RP_DECK_BAD_NAME = 5,
  RP_DECK_DUPLICATE_NAME = 6,
  RP_DECK_UNKNOWN_NAME = 7,
  RP_DECK_TOO_MANY = 8,
  RP_DECK_BAD_EXPRESSION = 9,
  RP_DECK_TASK_EXPECTED = 10,
  RP_DECK_OBJECT_EXPECTED = 11,
  RP_DECK_END_EXPECTED = 12,
  RP_DECK_SCRIPT_EXPECTED = 13,
  RP_DECK_NOT_IN_LIVE = 14 /* of the program's live mode alone */
};

/* What a node's answer has, and what the last step that it made gave besides. */
typedef struct rp_step {
  size_t stored;   /* how many of the answer's first bytes go to the node's device */
  size_t used;     /* how many bytes it has, or, where it does not fit, how many the buffer needs */
  size_t packets;  /* how many packets the last step sent */
  uint8_t dropped; /* what the last step did not take, by rp_dropped */
} rp_step;

/* What a step did not take. */
enum rp_dropped {
  RP_DROPPED_NOTHING = 0,
  RP_DROPPED_FULL = 1,    /* a call, an interrupt or a tick: 32 of them are pending at the node */
  RP_DROPPED_FOREIGN = 2, /* a packet for another node, from a node or for a position that the deck does not
                           * have, or in a ballot that its sender does not own */
  RP_DROPPED_EARLY = 3,   /* a call that cannot count at this node now: a call of its task below it did not
                           * count here, or its task waits. The node is as if the packet were lost, and there
                           * is nothing to store and nothing to send; the task sends the call again later */
  RP_DROPPED_STALE = 4    /* an interrupt: this occurrence of its source or a higher one counted */
};

/* The least size of the buffer for the answer of a step. */
#define RP_STEP_BYTES 8192

/* The requests to a node, by their first byte; the operands follow, numbers in big-endian order. */
enum rp_node_request {
  RP_NODE_RECEIVE = 1,    /* a step: a packet came. The packet, all of it */
  RP_NODE_LEAD = 2,       /* a step: the node is to lead. The position (2 bytes), or nothing: the least free */
  RP_NODE_INTERRUPT = 3,  /* a step: an interrupt. Its source, 1 to 8 (1), and which occurrence, from 1 (4) */
  RP_NODE_TICK = 4,       /* a step: the clock has this time (4) */
  RP_NODE_REPORT = 5,     /* a step: a report to the audit. The first position (2) */
  RP_NODE_LEAD_RANGE = 6, /* a step: the node is to lead at a range. Its first position (2), its length,
                           * 1 to 64 (1) */
  RP_NODE_ASK = 7,        /* a step: the node asks another one for the positions that it has not learned, of the
                           * 64 from its first unlearned one on: a packet for each, and no record. The node
                           * that is asked (1); RP_BAD_CONFIG if that is no node of the deck, or the node
                           * itself */
  RP_NODE_APPLIED = 16,   /* a question: how many actions are applied. The answer has 4 bytes */
  RP_NODE_IMAGE = 17,     /* a question: the lines that `show` prints of the objects and the clock */
  RP_NODE_LAST = 18,      /* a question: the answer of the last step that was made, again */
  RP_NODE_LEFT = 19,      /* a question: how many positions are not applied yet. The answer has 4 bytes */
  RP_NODE_PENDING = 20,   /* a question: how many calls, interrupts and ticks wait for a lead: they did not
                           * count yet, and no proposal that the node runs has them as its own action. A call
                           * that waits at a closed entry is none of them. The answer has 4 bytes */
  RP_NODE_COUNTED = 21,   /* a question: the number of the last call of a task that counted at this node, 0
                           * if none did. The task, 1 to 8 (1). The answer has 4 bytes */
  RP_NODE_OCCURRED = 22   /* a question: the last occurrence of an interrupt's source that counted at this
                           * node, 0 if none did. The source, 1 to 8 (1). The answer has 4 bytes */
};

/* Opens node `number` of the deck over the `held` bytes of its device, which are copied; the deck's
 * script is not run.
 *
 * RP_DONE: *node keeps the node, and what it kept before is closed; *found says what the device holds.
 *   The caller truncates its device to found->kept bytes, and syncs it, before the node's first step, unless
 *   found->tail is RP_TAIL_DAMAGED.
 * RP_BAD_DECK: found->line and found->reason say where and why, and nothing else has changed.
 * RP_NO_OBJECTS, RP_BAD_CONFIG, RP_IO, RP_OUT_OF_MEMORY: nothing has changed. */
uint8_t rp_node_open(const uint8_t *deck, size_t count, uint8_t number, const uint8_t *device, size_t held,
                     rp_node *node, rp_found *found);

/* How many bytes the header of a device has. */
#define RP_HEADER_BYTES 40

/* Puts the header of the device of node `number` of the deck into the first RP_HEADER_BYTES bytes of `header`:
 * the letters RPD, 1, the node, how many nodes and positions (2 bytes) the deck has, and the SHA-256 digest of
 * the deck's text up to the first line that begins with `script` or blanks and `script`. The caller puts it at the
 * front of a fresh device, and syncs it, before the first step. Nodes of one installation may tell each
 * other's packets from those of others by the digest, which the caller then puts around them.
 *
 * RP_SHORT_ANSWER: `size` is less than RP_HEADER_BYTES. Otherwise as rp_node_open; nothing has changed. */
uint8_t rp_device_header(const uint8_t *deck, size_t count, uint8_t number, uint8_t *header, size_t size);

/* As rp_node_open, over a device that begins with this node's header. found->kept counts the bytes after the
 * header alone: the caller truncates its device to RP_HEADER_BYTES + found->kept bytes.
 * RP_WRONG_DEVICE: the device begins with no header, or with that of another node or another deck. */
uint8_t rp_device_open(const uint8_t *deck, size_t count, uint8_t number, const uint8_t *device, size_t held,
                       rp_node *node, rp_found *found);

/* Answers a request to a node.
 *
 * RP_DONE: the first lengths->used bytes of `answer` are the answer, and its first lengths->stored bytes
 *   go to the device.
 * RP_SHORT_ANSWER: the buffer has fewer than lengths->used bytes. A step needs RP_STEP_BYTES and is not made.
 * RP_LONG_ANSWER: the step was made, its answer has lengths->used bytes, and `answer` is as it was:
 *   RP_NODE_LAST gives it into a longer buffer. No step is known to need that.
 * RP_WRONG_HANDLE, RP_BAD_REQUEST, RP_BAD_PACKET, RP_BAD_CONFIG, RP_BALLOTS_SPENT, RP_LOG_FULL, RP_TOO_FAR,
 * RP_OUT_OF_MEMORY: nothing has changed. */
static inline uint8_t rp_node_call(rp_node *node, const uint8_t *request, size_t count, uint8_t *answer,
                                   size_t size, rp_lengths *lengths) {
  return rp_handle_call_guarded(RP_NODE_HANDLE, node, request, count, answer, size, lengths);
}

/* The same, with where the packets end. RP_DONE: ends[k] is where packet k of the last step ends, counted
 * from the first byte of its packets (answer + step->stored after a step), for each k below step->packets
 * and `most`; step->dropped says what that step did not take. After a question they are those of the step
 * before. Otherwise nothing is written but step->used, as lengths->used by rp_node_call. */
uint8_t rp_node_step(rp_node *node, const uint8_t *request, size_t count, uint8_t *answer, size_t size,
                     size_t *ends, size_t most, rp_step *step);

/* As rp_node_step of the request RP_NODE_RECEIVE, by the `count` bytes of the packet alone, which are read
 * where they are. */
uint8_t rp_node_receive(rp_node *node, const uint8_t *packet, size_t count, uint8_t *answer, size_t size,
                        size_t *ends, size_t most, rp_step *step);

/* How long a node has waited; all zero before the first rp_node_advise, and after the node is opened again.
 * It is the caller's, for one node; the caller changes no byte of it. */
typedef struct rp_patience {
  uint32_t applied; /* how many actions were applied when the wait began */
  uint32_t tries;   /* how often the node was advised to lead or to ask at the end of a wait since then */
  uint64_t quiet;   /* how many quiet turns there were since the last advice to lead or to ask */
  uint32_t led;     /* the last position at which it was advised to lead on since then, or 0 */
  uint32_t asked;   /* one more than how many were applied when it was last advised to ask while idle, or 0 */
  uint64_t idle;    /* how many quiet turns it was idle since that */
} rp_patience;

#define RP_NO_WAIT {0, 0, 0, 0, 0, 0}

/* What a node is to do. */
typedef struct rp_advice {
  uint8_t kind;      /* by rp_advice_kind */
  uint16_t position; /* where it is to lead; otherwise 0 */
} rp_advice;

enum rp_advice_kind {
  RP_ADVICE_NOTHING = 0,
  RP_ADVICE_LEAD = 1, /* lead at `position`: the first that is not applied, or where the node leads on */
  RP_ADVICE_ASK = 2   /* ask another node, each time the next one, for the positions that this one misses */
};

/* What the node is to do after `turns` more quiet turns (docs/C.md, "Who leads"). A turn is a turn of the
 * caller's loop, or a millisecond. A node that led last leads on at once, and leads again for what is pending
 * after 4 turns in which nothing was applied: so a decision takes less than 4 turns. Any other, node k, waits
 * 32 k turns before it leads. Both wait from the third try on twice as long as before, up to 64 times as long. A
 * node that has nothing to do asks 32 k turns after it was opened, and then 64 times as seldom. In each turn of its loop the caller asks again, with 0 turns, until the
 * advice is RP_ADVICE_NOTHING. It changes the patience and nothing of the node.
 * RP_WRONG_HANDLE: nothing has changed. */
uint8_t rp_node_advise(rp_node *node, rp_patience *patience, uint64_t turns, rp_advice *advice);

/* Puts the text of the next deck of a station into `answer`, and its length into *used, by a node of this
 * deck whose log has ended (docs/C.md, "The end of the log"). It is the deck's text up to `script`, each
 * component with what it is now as its first value, after a comment with the digest of the deck. The station
 * goes on with it over fresh devices: clocks start at 0 again, and calls and interrupts at number 1. The node
 * stays as it is.
 *
 * RP_SHORT_ANSWER: the text has *used bytes, more than `size`; nothing else has changed.
 * RP_AT_WORK: a call waits, a timing event is set, or the deck is not the node's.
 * RP_NOT_ENDED, RP_AT_WORK, RP_WRONG_HANDLE, RP_OUT_OF_MEMORY, and RP_IO if the deck has more than 1,048,576
 * bytes: nothing has changed. */
uint8_t rp_next_deck(rp_node *node, const uint8_t *deck, size_t count, uint8_t *answer, size_t size,
                     size_t *used);

/* Stops a node: the handle is closed, and what the node knew besides its device is gone. A closed handle
 * stays closed. */
static inline void rp_node_close(rp_node *node) { rp_handle_close_guarded(node); }

/* ---- A task's stub
 *
 * It makes one call at a time, which has a number, and sends it again, also to another node, until its
 * reply came. What the caller owes: a task that stopped makes no call under the same number again, since
 * the nodes would take it for the old call. So a task's stub lives as long as its nodes' devices, or goes on
 * after the calls that it made (rp_task_open_after). */
typedef struct rp_task {
  bool open;
  uint8_t *at;
} rp_task;

/* The least size of the buffer for the answer of a task. */
#define RP_TASK_BYTES 40

/* The requests to a task, by their first byte; the operands follow, numbers in big-endian order. */
enum rp_task_request {
  RP_TASK_CALL = 1,   /* a new call. The node, the object, the kind of operation and its index (1 byte each),
                       * the argument (8). The answer is the packet to send */
  RP_TASK_AGAIN = 2,  /* the call that has no reply yet, again. The node (1). The answer is the packet to
                       * send, or nothing if there is no such call */
  RP_TASK_RECEIVE = 3 /* a packet came. The packet, all of it. The answer is the reply to the call, or
                       * nothing if the packet is none */
};

/* The kinds of operation, each with an index from 1 in the order of the deck; objects are numbered so too. */
enum rp_operation { RP_FUNCTION = 1, RP_PROCEDURE = 2, RP_ENTRY = 3, RP_SET_TIMER = 4, RP_CANCEL_TIMER = 5 };

/* A reply, by its first byte. */
enum rp_reply {
  RP_REPLY_VALUE = 1,            /* a whole number: 8 bytes, negative in two's complement */
  RP_REPLY_TRUTH = 2,            /* a truth: 1 byte, 0 or 1 */
  RP_REPLY_CONSTRAINT_ERROR = 3, /* the operation raised Constraint_Error */
  RP_REPLY_PROGRAM_ERROR = 4,    /* the operation raised Program_Error */
  RP_REPLY_NO_SUCH_OPERATION = 5 /* the object has no such operation */
};

/* Opens the stub of task `number`, 1 to 8, which has made no call; what the handle kept before is closed.
 * RP_BAD_CONFIG, RP_OUT_OF_MEMORY: nothing has changed. */
uint8_t rp_task_open(uint8_t number, rp_task *task);

/* Opens the stub of task `number`, which has made `calls` calls: its next one has number calls + 1. The task
 * that stopped may have made that call as well, so its first call here changes nothing and its reply is not
 * used (docs/C.md, "A task that restarts"). Otherwise as rp_task_open. */
uint8_t rp_task_open_after(uint8_t number, uint32_t calls, rp_task *task);

/* As rp_task_call of the request RP_TASK_RECEIVE, by the `count` bytes of the packet alone, which are read where
 * they are. */
uint8_t rp_task_receive(rp_task *task, const uint8_t *packet, size_t count, uint8_t *answer, size_t size,
                        rp_lengths *lengths);

/* Answers a request to a task. RP_DONE: the first lengths->used bytes of `answer` are the answer.
 *
 * RP_SHORT_ANSWER: the buffer has fewer than RP_TASK_BYTES bytes; nothing but lengths->used is written.
 * RP_WRONG_HANDLE, RP_BAD_REQUEST, RP_TASK_BUSY, RP_NUMBERS_SPENT, RP_BAD_PACKET, RP_OUT_OF_MEMORY:
 *   nothing has changed. */
static inline uint8_t rp_task_call(rp_task *task, const uint8_t *request, size_t count, uint8_t *answer,
                                   size_t size, rp_lengths *lengths) {
  return rp_handle_call_guarded(RP_TASK_HANDLE, task, request, count, answer, size, lengths);
}

/* Gives a task's stub back: the handle is closed. A closed handle stays closed. */
static inline void rp_task_close(rp_task *task) { rp_handle_close_guarded(task); }

/* ---- Null pointers
 *
 * What a caller of this header calls: the function of the library, unless a pointer is null. */

static inline uint8_t rp_packet_length_guarded(const uint8_t *bytes, size_t count, size_t *length) {
  bytes = rp_bytes_at(bytes, count);
  if (bytes == NULL || length == NULL) {
    return RP_NULL;
  }
  return rp_packet_length(bytes, count, length);
}

static inline uint8_t rp_packet_check_guarded(const uint8_t *bytes, size_t count, uint8_t *reason) {
  bytes = rp_bytes_at(bytes, count);
  if (bytes == NULL || reason == NULL) {
    return RP_NULL;
  }
  return rp_packet_check(bytes, count, reason);
}

static inline uint8_t rp_run_deck_guarded(const uint8_t *deck, size_t count, bool traced,
                                          uint8_t *answer, size_t size, size_t *used) {
  deck = rp_bytes_at(deck, count);
  answer = rp_buffer_at(answer, size);
  if (deck == NULL || answer == NULL || used == NULL) {
    return RP_NULL;
  }
  return rp_run_deck(deck, count, traced, answer, size, used);
}

static inline uint8_t rp_node_open_guarded(const uint8_t *deck, size_t count, uint8_t number,
                                           const uint8_t *device, size_t held, rp_node *node,
                                           rp_found *found) {
  deck = rp_bytes_at(deck, count);
  device = rp_bytes_at(device, held);
  if (deck == NULL || device == NULL || node == NULL || found == NULL) {
    return RP_NULL;
  }
  return rp_node_open(deck, count, number, device, held, node, found);
}

static inline uint8_t rp_device_open_guarded(const uint8_t *deck, size_t count, uint8_t number,
                                             const uint8_t *device, size_t held, rp_node *node,
                                             rp_found *found) {
  deck = rp_bytes_at(deck, count);
  device = rp_bytes_at(device, held);
  if (deck == NULL || device == NULL || node == NULL || found == NULL) {
    return RP_NULL;
  }
  return rp_device_open(deck, count, number, device, held, node, found);
}

static inline uint8_t rp_device_header_guarded(const uint8_t *deck, size_t count, uint8_t number,
                                               uint8_t *header, size_t size) {
  deck = rp_bytes_at(deck, count);
  header = rp_buffer_at(header, size);
  if (deck == NULL || header == NULL) {
    return RP_NULL;
  }
  return rp_device_header(deck, count, number, header, size);
}

static inline uint8_t rp_next_deck_guarded(rp_node *node, const uint8_t *deck, size_t count, uint8_t *answer,
                                           size_t size, size_t *used) {
  deck = rp_bytes_at(deck, count);
  answer = rp_buffer_at(answer, size);
  if (node == NULL || deck == NULL || answer == NULL || used == NULL) {
    return RP_NULL;
  }
  return rp_next_deck(node, deck, count, answer, size, used);
}

static inline uint8_t rp_node_step_guarded(rp_node *node, const uint8_t *request, size_t count,
                                           uint8_t *answer, size_t size, size_t *ends, size_t most,
                                           rp_step *step) {
  static size_t none = 0;
  request = rp_bytes_at(request, count);
  answer = rp_buffer_at(answer, size);
  ends = ends == NULL && most == 0 ? &none : ends;
  if (node == NULL || request == NULL || answer == NULL || ends == NULL || step == NULL) {
    return RP_NULL;
  }
  return rp_node_step(node, request, count, answer, size, ends, most, step);
}

static inline uint8_t rp_node_receive_guarded(rp_node *node, const uint8_t *packet, size_t count,
                                              uint8_t *answer, size_t size, size_t *ends, size_t most,
                                              rp_step *step) {
  static size_t none = 0;
  packet = rp_bytes_at(packet, count);
  answer = rp_buffer_at(answer, size);
  ends = ends == NULL && most == 0 ? &none : ends;
  if (node == NULL || packet == NULL || answer == NULL || ends == NULL || step == NULL) {
    return RP_NULL;
  }
  return rp_node_receive(node, packet, count, answer, size, ends, most, step);
}

static inline uint8_t rp_node_advise_guarded(rp_node *node, rp_patience *patience, uint64_t turns,
                                             rp_advice *advice) {
  if (node == NULL || patience == NULL || advice == NULL) {
    return RP_NULL;
  }
  return rp_node_advise(node, patience, turns, advice);
}

static inline uint8_t rp_task_open_guarded(uint8_t number, rp_task *task) {
  if (task == NULL) {
    return RP_NULL;
  }
  return rp_task_open(number, task);
}

static inline uint8_t rp_task_open_after_guarded(uint8_t number, uint32_t calls, rp_task *task) {
  if (task == NULL) {
    return RP_NULL;
  }
  return rp_task_open_after(number, calls, task);
}

static inline uint8_t rp_task_receive_guarded(rp_task *task, const uint8_t *packet, size_t count,
                                              uint8_t *answer, size_t size, rp_lengths *lengths) {
  packet = rp_bytes_at(packet, count);
  answer = rp_buffer_at(answer, size);
  if (task == NULL || packet == NULL || answer == NULL || lengths == NULL) {
    return RP_NULL;
  }
  return rp_task_receive(task, packet, count, answer, size, lengths);
}

#define rp_packet_length rp_packet_length_guarded
#define rp_packet_check rp_packet_check_guarded
#define rp_run_deck rp_run_deck_guarded
#define rp_node_open rp_node_open_guarded
#define rp_node_step rp_node_step_guarded
#define rp_device_open rp_device_open_guarded
#define rp_device_header rp_device_header_guarded
#define rp_node_receive rp_node_receive_guarded
#define rp_node_advise rp_node_advise_guarded
#define rp_next_deck rp_next_deck_guarded
#define rp_task_open rp_task_open_guarded
#define rp_task_open_after rp_task_open_after_guarded
#define rp_task_receive rp_task_receive_guarded

/* ---- Typed calls
 *
 * A request each, by its operands; the bytes of its request are put together here, and its answer and its status
 * are those of rp_node_step, rp_node_call or rp_task_call. An operand that no request has is refused by
 * RP_BAD_REQUEST, and nothing has changed. */

/* Where a step's answer goes: `answer` has `size` bytes, at least RP_STEP_BYTES; `ends` has room for `most` ends
 * of packets, and may be null if `most` is 0; `step` is written, as by rp_node_step. */
typedef struct rp_room {
  uint8_t *answer;
  size_t size;
  size_t *ends;
  size_t most;
  rp_step step;
} rp_room;

/* The bytes of a number, the first of them first. */
static inline void rp_put_number(uint8_t *bytes, uint64_t number, int count) {
  for (int at = count - 1; at >= 0; at--) {
    bytes[at] = (uint8_t)(number & 255);
    number >>= 8;
  }
}

static inline uint32_t rp_number_of(const uint8_t *bytes) {
  return (uint32_t)bytes[0] << 24 | (uint32_t)bytes[1] << 16 | (uint32_t)bytes[2] << 8 | (uint32_t)bytes[3];
}

/* A step by the bytes of its request. */
static inline uint8_t rp_node_step_into(rp_node *node, const uint8_t *request, size_t count, rp_room *room) {
  if (room == NULL) {
    return RP_NULL;
  }
  return rp_node_step(node, request, count, room->answer, room->size, room->ends, room->most, &room->step);
}

/* A packet came. */
static inline uint8_t rp_node_take(rp_node *node, const uint8_t *packet, size_t count, rp_room *room) {
  if (room == NULL) {
    return RP_NULL;
  }
  return rp_node_receive(node, packet, count, room->answer, room->size, room->ends, room->most, &room->step);
}

/* The node is to lead at the least free position. */
static inline uint8_t rp_node_lead(rp_node *node, rp_room *room) {
  const uint8_t request[1] = {RP_NODE_LEAD};
  return rp_node_step_into(node, request, sizeof request, room);
}

/* The node is to lead at this position. */
static inline uint8_t rp_node_lead_at(rp_node *node, uint16_t position, rp_room *room) {
  uint8_t request[3] = {RP_NODE_LEAD, 0, 0};
  rp_put_number(request + 1, position, 2);
  return rp_node_step_into(node, request, sizeof request, room);
}

/* The node is to lead at `count` positions, 1 to 64, from `first` on. */
static inline uint8_t rp_node_lead_range(rp_node *node, uint16_t first, uint8_t count, rp_room *room) {
  uint8_t request[4] = {RP_NODE_LEAD_RANGE, 0, 0, count};
  rp_put_number(request + 1, first, 2);
  return rp_node_step_into(node, request, sizeof request, room);
}

/* The node is to ask another one, `node_asked`, for the positions that it misses. */
static inline uint8_t rp_node_ask(rp_node *node, uint8_t node_asked, rp_room *room) {
  const uint8_t request[2] = {RP_NODE_ASK, node_asked};
  return rp_node_step_into(node, request, sizeof request, room);
}

/* An interrupt of a source, 1 to 8, by the number of its occurrence, from 1. */
static inline uint8_t rp_node_interrupt(rp_node *node, uint8_t source, uint32_t occurrence, rp_room *room) {
  uint8_t request[6] = {RP_NODE_INTERRUPT, source, 0, 0, 0, 0};
  rp_put_number(request + 2, occurrence, 4);
  return rp_node_step_into(node, request, sizeof request, room);
}

/* The clock has this time. */
static inline uint8_t rp_node_tick(rp_node *node, uint32_t now, rp_room *room) {
  uint8_t request[5] = {RP_NODE_TICK, 0, 0, 0, 0};
  rp_put_number(request + 1, now, 4);
  return rp_node_step_into(node, request, sizeof request, room);
}

/* A report to the audit, from the position `first` on. */
static inline uint8_t rp_node_report(rp_node *node, uint16_t first, rp_room *room) {
  uint8_t request[3] = {RP_NODE_REPORT, 0, 0};
  rp_put_number(request + 1, first, 2);
  return rp_node_step_into(node, request, sizeof request, room);
}

/* A question whose answer is a number of 4 bytes, which is written into *number by RP_DONE alone. */
static inline uint8_t rp_node_number(rp_node *node, const uint8_t *request, size_t count, uint32_t *number) {
  uint8_t answer[4] = {0, 0, 0, 0};
  rp_lengths lengths = {0, 0};
  if (number == NULL) {
    return RP_NULL;
  }
  uint8_t status = rp_node_call(node, request, count, answer, sizeof answer, &lengths);
  if (status == RP_DONE) {
    *number = rp_number_of(answer);
  }
  return status;
}

/* How many actions are applied. */
static inline uint8_t rp_node_applied(rp_node *node, uint32_t *number) {
  const uint8_t request[1] = {RP_NODE_APPLIED};
  return rp_node_number(node, request, sizeof request, number);
}

/* How many positions are not applied yet. */
static inline uint8_t rp_node_left(rp_node *node, uint32_t *number) {
  const uint8_t request[1] = {RP_NODE_LEFT};
  return rp_node_number(node, request, sizeof request, number);
}

/* How many pending items wait for a lead. */
static inline uint8_t rp_node_pending(rp_node *node, uint32_t *number) {
  const uint8_t request[1] = {RP_NODE_PENDING};
  return rp_node_number(node, request, sizeof request, number);
}

/* The number of the last call of a task that counted. */
static inline uint8_t rp_node_counted(rp_node *node, uint8_t task, uint32_t *number) {
  const uint8_t request[2] = {RP_NODE_COUNTED, task};
  return rp_node_number(node, request, sizeof request, number);
}

/* The last occurrence of an interrupt's source that counted: the next one that counts is above it. */
static inline uint8_t rp_node_occurred(rp_node *node, uint8_t source, uint32_t *number) {
  const uint8_t request[2] = {RP_NODE_OCCURRED, source};
  return rp_node_number(node, request, sizeof request, number);
}

/* The time of a timing event that is set, by its line in an image, `timer NAME at TIME`, which ends at `end`: whether
 * it is one, and the time into *time. */
static inline bool rp_timer_of(const uint8_t *line, const uint8_t *end, int64_t *time) {
  const uint8_t *at = end;
  while (at > line && at[-1] != ' ') {
    at--;
  }
  if (at - line < 11 || memcmp(line, "timer ", 6) != 0 || memcmp(at - 4, " at ", 4) != 0) {
    return false;
  }
  bool below = *at == '-';
  *time = 0;
  for (at += below; at < end; at++) {
    *time = *time * 10 - (*at - '0');
  }
  *time = below ? *time : -*time;
  return true;
}

/* The least time for which a timing event is set at the node, into *time, and whether there is one, into *is_set. It
 * is read off the node's image (RP_NODE_IMAGE), for which the room's answer has the space: RP_SHORT_ANSWER if the image
 * is longer. */
static inline uint8_t rp_node_next_timer(rp_node *node, rp_room *room, bool *is_set, int64_t *time) {
  const uint8_t request[1] = {RP_NODE_IMAGE};
  rp_lengths lengths = {0, 0};
  if (room == NULL || is_set == NULL || time == NULL) {
    return RP_NULL;
  }
  uint8_t status = rp_node_call(node, request, sizeof request, room->answer, room->size, &lengths);
  if (status != RP_DONE) {
    return status;
  }
  *is_set = false;
  for (size_t from = 0, end = 0; from < lengths.used; from = end + 1) {
    int64_t set = 0;
    for (end = from; end < lengths.used && room->answer[end] != '\n';) {
      end++;
    }
    if (rp_timer_of(room->answer + from, room->answer + end, &set) && (!*is_set || set < *time)) {
      *is_set = true;
      *time = set;
    }
  }
  return RP_DONE;
}

/* The packet of a task's call, to send. */
typedef struct rp_call_packet {
  uint8_t bytes[RP_TASK_BYTES];
  size_t count; /* 0 if there is no packet */
} rp_call_packet;

/* A call through a node of an operation (rp_operation) of an object, by their indices. */
static inline uint8_t rp_task_operation(rp_task *task, uint8_t node, uint8_t object, uint8_t operation,
                                        uint8_t index, int64_t argument, rp_call_packet *packet) {
  uint8_t request[13] = {RP_TASK_CALL, node, object, operation, index, 0, 0, 0, 0, 0, 0, 0, 0};
  rp_lengths lengths = {0, 0};
  if (packet == NULL) {
    return RP_NULL;
  }
  rp_put_number(request + 5, (uint64_t)argument, 8);
  uint8_t status = rp_task_call(task, request, sizeof request, packet->bytes, sizeof packet->bytes, &lengths);
  if (status == RP_DONE) {
    packet->count = lengths.used;
  }
  return status;
}

static inline uint8_t rp_task_function(rp_task *task, uint8_t node, uint8_t object, uint8_t index,
                                       int64_t argument, rp_call_packet *packet) {
  return rp_task_operation(task, node, object, RP_FUNCTION, index, argument, packet);
}

static inline uint8_t rp_task_procedure(rp_task *task, uint8_t node, uint8_t object, uint8_t index,
                                        int64_t argument, rp_call_packet *packet) {
  return rp_task_operation(task, node, object, RP_PROCEDURE, index, argument, packet);
}

static inline uint8_t rp_task_entry(rp_task *task, uint8_t node, uint8_t object, uint8_t index,
                                    int64_t argument, rp_call_packet *packet) {
  return rp_task_operation(task, node, object, RP_ENTRY, index, argument, packet);
}

static inline uint8_t rp_task_set_timer(rp_task *task, uint8_t node, uint8_t object, uint8_t index, int64_t time,
                                        rp_call_packet *packet) {
  return rp_task_operation(task, node, object, RP_SET_TIMER, index, time, packet);
}

static inline uint8_t rp_task_cancel_timer(rp_task *task, uint8_t node, uint8_t object, uint8_t index,
                                           rp_call_packet *packet) {
  return rp_task_operation(task, node, object, RP_CANCEL_TIMER, index, 0, packet);
}

/* The call that has no reply yet, again, through a node: packet->count is 0 if there is no such call. */
static inline uint8_t rp_task_again(rp_task *task, uint8_t node, rp_call_packet *packet) {
  const uint8_t request[2] = {RP_TASK_AGAIN, node};
  rp_lengths lengths = {0, 0};
  if (packet == NULL) {
    return RP_NULL;
  }
  uint8_t status = rp_task_call(task, request, sizeof request, packet->bytes, sizeof packet->bytes, &lengths);
  if (status == RP_DONE) {
    packet->count = lengths.used;
  }
  return status;
}

/* The reply to a task's call: of which kind it is (rp_reply), or 0 if a packet was none; and its value, a Boolean
 * as 0 or 1. */
typedef struct rp_call_reply {
  uint8_t kind;
  int64_t value;
} rp_call_reply;

/* The number whose two's complement these bits are. */
static inline int64_t rp_signed_of(uint64_t bits) {
  return bits <= INT64_MAX ? (int64_t)bits : -(int64_t)(UINT64_MAX - bits) - 1;
}

/* A packet came: the reply in it, if it is one to the task's call. */
static inline uint8_t rp_task_take(rp_task *task, const uint8_t *packet, size_t count, rp_call_reply *reply) {
  uint8_t answer[RP_TASK_BYTES];
  rp_lengths lengths = {0, 0};
  if (reply == NULL) {
    return RP_NULL;
  }
  uint8_t status = rp_task_receive(task, packet, count, answer, sizeof answer, &lengths);
  if (status != RP_DONE) {
    return status;
  }
  reply->kind = lengths.used == 0 ? 0 : answer[0];
  reply->value = 0;
  if (reply->kind == RP_REPLY_VALUE) {
    uint64_t bits = (uint64_t)rp_number_of(answer + 1) << 32 | rp_number_of(answer + 5);
    reply->value = rp_signed_of(bits);
  } else if (reply->kind == RP_REPLY_TRUTH) {
    reply->value = answer[1];
  }
  return RP_DONE;
}

#ifdef __cplusplus
}
#endif

#endif

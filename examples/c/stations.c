/* A station that goes on over new devices: the log of three nodes ends after two calls, each node gives the text of the
 * next deck, and another call over fresh devices goes on from there. */
#include <stdio.h>
#include <stdlib.h>
#include <string.h>
#include <threads.h>

#include "rp.h"

enum { NODES = 3, MOST_BYTES = 4096, MOST_PACKETS = 16, TANK = 1, FILL = 1, TAKE = 1 };

/* Bytes that grow: a device, or the packets that are sent. */
struct run {
  uint8_t bytes[MOST_BYTES];
  size_t length;
};

static const char first_deck[] = "# two actions\nnodes 3\npositions 2\ntask writer 5\nobject tank 9\nint level 0 100 0\n"
                                 "bool full false\nprocedure fill\nset level add level arg\nput full le 7 level\nout level\n"
                                 "end\nentry take when full\nset level 0\nput full false\nend\nscript\nshow\n";
static struct run deck;
static struct run devices[NODES + 1]; /* from 1 */
static rp_node nodes[NODES + 1];
static rp_task writer = RP_CLOSED;
static struct run queue;
static uint8_t answer[RP_STEP_BYTES];
static size_t ends[MOST_PACKETS];
static rp_room room = {answer, sizeof answer, ends, MOST_PACKETS, {0, 0, 0, 0}};

static void must(bool holds, const char *what) {
  if (!holds) {
    fprintf(stderr, "%s\n", what);
    exit(1);
  }
}

static void append(struct run *run, const uint8_t *bytes, size_t count) {
  must(count <= MOST_BYTES - run->length, "no room");
  memcpy(run->bytes + run->length, bytes, count);
  run->length += count;
}

/* Fresh devices, each with its header, and a task that made no call. */
static void begin(void) {
  for (uint8_t number = 1; number <= NODES; number++) {
    struct run *device = &devices[number];
    rp_found found;
    must(rp_device_header(deck.bytes, deck.length, number, device->bytes, MOST_BYTES) == RP_DONE, "a header");
    device->length = RP_HEADER_BYTES;
    must(rp_device_open(deck.bytes, deck.length, number, device->bytes, device->length, &nodes[number], &found) ==
             RP_DONE,
         "a node is not opened");
  }
  must(rp_task_open(1, &writer) == RP_DONE, "the task is not opened");
}

/* What a step gave: its record is on the device before its packets are sent. */
static void keep(uint8_t number, uint8_t status) {
  must(status == RP_DONE, "a step is refused");
  append(&devices[number], answer, room.step.stored);
  append(&queue, answer + room.step.stored, room.step.used - room.step.stored);
}

/* One call of the tank: node 1 leads, and every packet is delivered; returns whether it was answered. */
static bool call(uint8_t operation, int64_t argument) {
  rp_call_packet packet;
  rp_call_reply reply = {0, 0};
  must(rp_task_operation(&writer, 1, TANK, operation, operation == RP_ENTRY ? TAKE : FILL, argument, &packet) == RP_DONE,
       "no call");
  queue.length = 0;
  keep(1, rp_node_take(&nodes[1], packet.bytes, packet.count, &room));
  keep(1, rp_node_lead(&nodes[1], &room));
  for (size_t at = 0, count = 0; at < queue.length; at += count) {
    must(rp_packet_length(queue.bytes + at, queue.length - at, &count) == RP_DONE, "no packet");
    uint8_t to = queue.bytes[at + 3];
    if (to <= NODES) {
      keep(to, rp_node_take(&nodes[to], queue.bytes + at, count, &room));
    } else {
      must(rp_task_take(&writer, queue.bytes + at, count, &reply) == RP_DONE, "no reply");
    }
  }
  if (reply.kind == RP_REPLY_VALUE) {
    printf("reply %lld\n", (long long)reply.value);
  }
  return reply.kind != 0;
}

/* The next deck by each node: all the same, or all refused alike. */
static uint8_t next_deck(struct run *next) {
  uint8_t status = RP_DONE;
  for (uint8_t number = 1; number <= NODES; number++) {
    struct run one = {{0}, 0};
    status = rp_next_deck(&nodes[number], deck.bytes, deck.length, one.bytes, MOST_BYTES, &one.length);
    must(number == 1 || (one.length == next->length && memcmp(one.bytes, next->bytes, one.length) == 0), "they differ");
    *next = one;
  }
  return status;
}

/* The same by another thread: a handle may pass from one to another between calls. */
static int next_deck_by_thread(void *next) { return next_deck(next); }

int main(void) {
  static struct run next;
  thrd_t other;
  int status = 0;
  append(&deck, (const uint8_t *)first_deck, sizeof first_deck - 1);
  begin();
  call(RP_PROCEDURE, 3);
  printf("one position is left: status %d\n", next_deck(&next));
  call(RP_PROCEDURE, 4);
  printf("the log has ended: status %d\n", next_deck(&next));
  printf("%.*s", (int)next.length, (char *)next.bytes);
  uint8_t small[8] = {0};
  size_t used = 0;
  printf("a buffer of 8 bytes: status %d", rp_next_deck(&nodes[1], deck.bytes, deck.length, small, sizeof small, &used));
  printf(", %s\n", used == next.length ? "and the length" : "another length");
  printf("another deck: status %d\n", rp_next_deck(&nodes[1], (const uint8_t *)"nodes 3\n", 8, small, sizeof small, &used));
  rp_node closed = RP_CLOSED;
  printf("a closed handle: status %d\n", rp_next_deck(&closed, deck.bytes, deck.length, small, sizeof small, &used));
  deck = next;
  begin();
  printf("taken: %d\n", call(RP_ENTRY, 0));
  printf("waits: %d\n", !call(RP_ENTRY, 0));
  printf("a call waits: status %d\n", next_deck(&next));
  must(thrd_create(&other, next_deck_by_thread, &next) == thrd_success && thrd_join(other, &status) == thrd_success, "no thread");
  printf("by another thread: status %d\n", status);
  for (uint8_t number = 1; number <= NODES; number++) {
    rp_node_close(&nodes[number]);
  }
  rp_task_close(&writer);
  return 0;
}

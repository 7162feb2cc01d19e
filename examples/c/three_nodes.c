/* Three nodes and a task in one process, over byte arrays: one call, a stop of node 2, and its restart from
 * its bytes. It reads decks/a_node_restarts_from_its_bytes.deck on standard input, takes its declarations,
 * does what its script says, and prints what the deck prints. */
#include <stdio.h>
#include <stdlib.h>
#include <string.h>

#include "rp.h"

enum { NODES = 3, MOST_BYTES = 65536, MOST_PACKET = 256 };

/* Bytes that grow: a device, or the packets that are sent. */
struct run {
  uint8_t bytes[MOST_BYTES];
  size_t length;
};

static struct run deck;
static struct run devices[NODES + 1]; /* from 1 */
static rp_node nodes[NODES + 1];      /* closed, since they are all zero */
static rp_task writer = RP_CLOSED;
/* The packets that were sent, in order, and how far they are delivered. */
static struct run queue;
static size_t delivered;
static uint8_t answer[RP_STEP_BYTES];

static void must(bool holds, const char *what) {
  if (!holds) {
    fprintf(stderr, "%s\n", what);
    exit(1);
  }
}

static void append(struct run *run, const uint8_t *bytes, size_t count) {
  must(count <= MOST_BYTES - run->length, "no room");
  memcpy(run->bytes + run->length, bytes, count);
  run->length += count;
}

/* A big-endian number. */
static uint64_t number_of(const uint8_t *bytes, size_t count) {
  uint64_t number = 0;
  for (size_t at = 0; at < count; at++) {
    number = number << 8 | bytes[at];
  }
  return number;
}

/* Opens a node over its device, of which it keeps the whole records; returns how many bytes were torn. */
static size_t open_node(uint8_t number, size_t *records) {
  struct run *device = &devices[number];
  rp_found found;
  uint8_t status =
      rp_node_open(deck.bytes, deck.length, number, device->bytes, device->length, &nodes[number], &found);
  must(status == RP_DONE, "a node is not opened");
  size_t torn = device->length - found.kept;
  device->length = found.kept;
  *records = found.records;
  return torn;
}

/* A step of a node: its record is put on the device, and only then are its packets sent. */
static void step(uint8_t number, const uint8_t *request, size_t count) {
  rp_lengths lengths = {0, 0};
  uint8_t status = rp_node_call(&nodes[number], request, count, answer, sizeof answer, &lengths);
  must(status == RP_DONE, "a step is refused");
  append(&devices[number], answer, lengths.stored);
  /* Here a device that is a file is synced. */
  append(&queue, answer + lengths.stored, lengths.used - lengths.stored);
}

/* The writer takes the reply that a packet carries. */
static void take(const uint8_t *request, size_t count) {
  rp_lengths lengths = {0, 0};
  must(rp_task_call(&writer, request, count, answer, sizeof answer, &lengths) == RP_DONE, "a reply is refused");
  if (lengths.used == 0) {
    return; /* to an older call */
  }
  must(answer[0] == RP_REPLY_VALUE, "an exception");
  printf("reply writer 1 value %lld\n", (long long)number_of(answer + 1, 8));
}

/* Delivers all packets, in the order in which they were sent: the byte at 3 says to whom. */
static void drain(void) {
  while (delivered < queue.length) {
    const uint8_t *packet = queue.bytes + delivered;
    size_t length = 0;
    must(rp_packet_length(packet, queue.length - delivered, &length) == RP_DONE, "no packet");
    delivered += length;
    must(length <= MOST_PACKET, "a long packet");
    bool is_to_task = packet[3] == RP_TASK_PARTY + 1;
    uint8_t request[1 + MOST_PACKET] = {is_to_task ? RP_TASK_RECEIVE : RP_NODE_RECEIVE};
    memcpy(request + 1, packet, length);
    if (is_to_task) {
      take(request, 1 + length);
    } else {
      step(packet[3], request, 1 + length);
    }
  }
}

static size_t ask(uint8_t number, uint8_t question) {
  rp_lengths lengths = {0, 0};
  must(rp_node_call(&nodes[number], &question, 1, answer, sizeof answer, &lengths) == RP_DONE, "no answer");
  return lengths.used;
}

static void show(uint8_t number) {
  size_t used = ask(number, RP_NODE_APPLIED);
  printf("node %d applied %u\n", number, (unsigned)number_of(answer, used));
  used = ask(number, RP_NODE_IMAGE);
  fwrite(answer, 1, used, stdout);
}

int main(void) {
  deck.length = fread(deck.bytes, 1, MOST_BYTES, stdin);
  size_t records = 0;
  for (uint8_t number = 1; number <= NODES; number++) {
    open_node(number, &records);
  }
  must(rp_task_open(1, &writer) == RP_DONE, "no task");

  /* call writer 1 tank.fill 7 */
  uint8_t call[13] = {RP_TASK_CALL, 1, 1, RP_PROCEDURE, 1, 0, 0, 0, 0, 0, 0, 0, 7};
  rp_lengths lengths = {0, 0};
  must(rp_task_call(&writer, call, sizeof call, answer, sizeof answer, &lengths) == RP_DONE, "no call");
  append(&queue, answer, lengths.used);
  drain();

  /* lead 1 */
  uint8_t lead = RP_NODE_LEAD;
  step(1, &lead, 1);
  drain();

  /* stop 2, restart 2: what node 2 knew besides its records is gone. */
  rp_node_close(&nodes[2]);
  size_t torn = open_node(2, &records);
  printf("node 2 open records %zu cut %zu\n", records, torn);

  for (uint8_t number = 1; number <= NODES; number++) {
    show(number);
    rp_node_close(&nodes[number]);
  }
  rp_task_close(&writer);
  return 0;
}

/* Requests that a node or a task refuses: each has its status, and changes nothing. It reads
 * decks/a_node_restarts_from_its_bytes.deck on standard input, for its declarations. */
#include <stdio.h>
#include <string.h>

#include "rp.h"

enum { MOST_BYTES = 65536 };

static uint8_t deck[MOST_BYTES];
static uint8_t answer[RP_STEP_BYTES];
static rp_lengths lengths;

static void say(const char *what, uint8_t status) { printf("%s: status %d\n", what, status); }

/* A request to a node that is to be refused: neither the answer's buffer nor the stored length changes. */
static void node(const char *what, rp_node *handle, const uint8_t *request, size_t count, size_t size) {
  memset(answer, 7, sizeof answer);
  lengths = (rp_lengths){7, 7};
  say(what, rp_node_call(handle, request, count, answer, size, &lengths));
  bool is_same = lengths.stored == 7;
  for (size_t at = 0; at < sizeof answer; at++) {
    is_same = is_same && answer[at] == 7;
  }
  printf("  %s, used %zu\n", is_same ? "the same" : "CHANGED", lengths.used);
}

int main(void) {
  size_t count = fread(deck, 1, sizeof deck, stdin);
  rp_node one = RP_CLOSED;
  rp_task writer = RP_CLOSED;
  rp_found found = {7, 7, 7, 7, 7};
  uint8_t nothing = 0;
  const uint8_t lead[1] = {RP_NODE_LEAD};
  const uint8_t applied[1] = {RP_NODE_APPLIED};
  const uint8_t packet[3] = {RP_NODE_RECEIVE, 2, 2};
  const uint8_t unknown[1] = {200};
  const uint8_t call[13] = {RP_TASK_CALL, 1, 1, RP_PROCEDURE, 1};
  const uint8_t again[2] = {RP_TASK_AGAIN, 2};

  node("a request by a closed handle", &one, lead, 1, sizeof answer);
  say("node 4 of three", rp_node_open(deck, count, 4, &nothing, 0, &one, &found));
  say("a deck that is cut off", rp_node_open(deck, count / 2, 1, &nothing, 0, &one, &found));
  printf("  found %zu %zu, line %u, reason %u\n", found.records, found.kept, (unsigned)found.line, found.reason);
  say("node 1", rp_node_open(deck, count, 1, &nothing, 0, &one, &found));
  printf("  found %zu %zu\n", found.records, found.kept);
  node("a step with too short a buffer", &one, lead, 1, RP_STEP_BYTES - 1);
  node("a question with too short a buffer", &one, applied, 1, 3);
  node("bytes that are no request", &one, unknown, 1, sizeof answer);
  node("no byte at all", &one, &nothing, 0, sizeof answer);
  node("bytes that are no packet", &one, packet, sizeof packet, sizeof answer);
  say("a request to a task by the handle of a node",
      rp_task_call((rp_task *)&one, again, sizeof again, answer, sizeof answer, &lengths));
  rp_node_close(&one);
  rp_node_close(&one);
  node("a request by a handle that was closed", &one, lead, 1, sizeof answer);

  say("task 9", rp_task_open(9, &writer));
  say("task 1", rp_task_open(1, &writer));
  say("an answer of 39 bytes", rp_task_call(&writer, again, sizeof again, answer, RP_TASK_BYTES - 1, &lengths));
  say("a call", rp_task_call(&writer, call, sizeof call, answer, sizeof answer, &lengths));
  printf("  used %zu\n", lengths.used);
  say("a call before the reply", rp_task_call(&writer, call, sizeof call, answer, sizeof answer, &lengths));
  say("the call again", rp_task_call(&writer, again, sizeof again, answer, sizeof answer, &lengths));
  printf("  used %zu\n", lengths.used);
  rp_task_close(&writer);
  return 0;
}

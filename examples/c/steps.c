/* What a step gives besides its bytes: where its packets end, and what it did not take; what a lead says at the
 * end of the log, and before it; how a node asks for what it misses. Three nodes of a deck of 70 positions, over
 * byte arrays. */
#include <stdio.h>
#include <string.h>

#include "rp.h"

enum { MOST_ENDS = 16 };

static const char deck[] = "nodes 3\npositions 70\ntask writer 5\nobject tank 9\nint level 0 100 0\n"
                           "procedure fill\nset level add level arg\nout level\nend\nscript\n";
static uint8_t answer[RP_STEP_BYTES];
static size_t ends[MOST_ENDS];
static rp_step step;

/* A request to a node, and the packets of its answer, each compared with what rp_packet_length says. */
static void ask(const char *what, rp_node *node, const uint8_t *request, size_t count) {
  memset(&step, 0, sizeof step);
  memset(ends, 0, sizeof ends);
  uint8_t status = rp_node_step(node, request, count, answer, sizeof answer, ends, MOST_ENDS, &step);
  printf("%s: status %d, stored %zu, used %zu, packets %zu, dropped %d\n", what, status, step.stored, step.used,
         step.packets, step.dropped);
  size_t from = 0;
  for (size_t at = 0; at < step.packets && at < MOST_ENDS && request[0] != RP_NODE_APPLIED; at++) {
    const uint8_t *packet = answer + step.stored + from;
    size_t length = 0;
    uint8_t whole = rp_packet_length(packet, step.used - step.stored - from, &length);
    printf("  packet to %d ends at %zu%s\n", packet[3], ends[at],
           whole == RP_DONE && from + length == ends[at] ? "" : ", which is WRONG");
    from = ends[at];
  }
}

/* How many positions are left. */
static void left(rp_node *node) {
  const uint8_t question[1] = {RP_NODE_LEFT};
  rp_lengths lengths = {0, 0};
  uint8_t status = rp_node_call(node, question, 1, answer, sizeof answer, &lengths);
  printf("left: status %d, %u\n", status, (unsigned)answer[2] << 8 | answer[3]);
}

/* Node 1 hears of a decision that node 3 missed; node 3 asks node 1 for what it misses, and learns it. */
static void catch_up(void) {
  const uint8_t *text = (const uint8_t *)deck;
  rp_node one = RP_CLOSED;
  rp_node three = RP_CLOSED;
  rp_found found;
  printf("open node 1: status %d\n", rp_node_open(text, sizeof deck - 1, 1, NULL, 0, &one, &found));
  printf("open node 3: status %d\n", rp_node_open(text, sizeof deck - 1, 3, NULL, 0, &three, &found));

  /* from node 2: at position 1 nothing was decided to happen */
  const uint8_t decided[8] = {RP_NODE_RECEIVE, 2, 6, 2, 1, 0, 1, 0};
  ask("a decision for node 1", &one, decided, sizeof decided);
  const uint8_t missing[2] = {RP_NODE_ASK, 1};
  ask("node 3 asks node 1", &three, missing, sizeof missing);
  uint8_t packet[1 + MOST_ENDS] = {RP_NODE_RECEIVE};
  size_t length = ends[0];
  memcpy(packet + 1, answer + step.stored, length);
  ask("its first question", &one, packet, 1 + length);
  length = ends[0];
  memcpy(packet + 1, answer + step.stored, length);
  ask("the answer", &three, packet, 1 + length);
  left(&three);
  const uint8_t itself[2] = {RP_NODE_ASK, 3};
  ask("node 3 asks itself", &three, itself, sizeof itself);
  rp_node_close(&one);
  rp_node_close(&three);
}

int main(void) {
  rp_node one = RP_CLOSED;
  rp_found found;
  const uint8_t *text = (const uint8_t *)deck;
  printf("open: status %d\n", rp_node_open(text, sizeof deck - 1, 1, NULL, 0, &one, &found));

  const uint8_t lead[1] = {RP_NODE_LEAD};
  ask("lead", &one, lead, 1);
  const uint8_t again[1] = {RP_NODE_LAST};
  ask("the answer again", &one, again, 1);
  const uint8_t applied[1] = {RP_NODE_APPLIED};
  ask("a question", &one, applied, 1);
  left(&one);

  /* a range: one packet to each node */
  const uint8_t range[4] = {RP_NODE_LEAD_RANGE, 0, 2, 8};
  ask("lead at 2 to 9", &one, range, sizeof range);

  /* a packet for node 2 */
  const uint8_t foreign[15] = {RP_NODE_RECEIVE, 2, 2, 3, 2, 0, 1, 0, 0, 0, 0, 0, 0, 0, 11};
  ask("a packet for node 2", &one, foreign, sizeof foreign);

  /* 32 ticks may wait */
  uint8_t tick[5] = {RP_NODE_TICK, 0, 0, 0, 0};
  for (uint8_t now = 1; now <= 32; now++) {
    tick[4] = now;
    uint8_t status = rp_node_step(&one, tick, sizeof tick, answer, sizeof answer, ends, MOST_ENDS, &step);
    if (status != RP_DONE || step.dropped != RP_DROPPED_NOTHING) {
      printf("tick %d: status %d, dropped %d\n", now, status, step.dropped);
    }
  }
  tick[4] = 33;
  ask("the 33rd tick", &one, tick, sizeof tick);

  /* position 65 is in the log, and 64 above the first that is not learned; position 71 is above the log */
  const uint8_t far[3] = {RP_NODE_LEAD, 0, 65};
  ask("lead at 65", &one, far, sizeof far);
  const uint8_t above[3] = {RP_NODE_LEAD, 0, 71};
  ask("lead at 71", &one, above, sizeof above);
  const uint8_t far_range[4] = {RP_NODE_LEAD_RANGE, 0, 60, 11};
  ask("lead at 60 to 70", &one, far_range, sizeof far_range);
  const uint8_t range_above[4] = {RP_NODE_LEAD_RANGE, 0, 60, 12};
  ask("lead at 60 to 71", &one, range_above, sizeof range_above);

  /* an array of ends that is too short: the first of them, and how many there are */
  ends[2] = 7;
  uint8_t status = rp_node_step(&one, lead, 1, answer, sizeof answer, ends, 2, &step);
  printf("two ends: status %d, %zu packets, %zu %zu %zu\n", status, step.packets, ends[0], ends[1], ends[2]);
  rp_node_close(&one);
  catch_up();
  return 0;
}

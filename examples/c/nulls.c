/* Each function with each of its pointers null: RP_NULL, and nothing has changed. Bytes of which there are
 * none may be null. It reads decks/a_node_restarts_from_its_bytes.deck on standard input, for its
 * declarations. */
#include <stdio.h>
#include <string.h>

#include "rp.h"

enum { MOST_BYTES = 65536 };

static uint8_t deck[MOST_BYTES];
static uint8_t answer[RP_STEP_BYTES];
static const uint8_t packet[14] = {2, 2, 1, 2, 0, 1, 0, 0, 0, 0, 0, 0, 0, 9};
static const uint8_t applied[1] = {RP_NODE_APPLIED};
static const uint8_t again[2] = {RP_TASK_AGAIN, 1};

static size_t used;
static uint8_t reason;
static rp_found found;
static rp_lengths lengths;
static rp_step step;
static rp_patience patience;
static rp_advice advice;
static size_t ends[4];
static rp_node node = RP_CLOSED;
static rp_task task = RP_CLOSED;

/* Fills what a call may write. */
static void fill(void) {
  memset(answer, 7, sizeof answer);
  used = 7;
  reason = 7;
  found = (rp_found){7, 7, 7, 7, 7};
  lengths = (rp_lengths){7, 7};
  step = (rp_step){7, 7, 7, 7};
  ends[0] = 7;
  patience = (rp_patience){7, 7, 7, 7, 7, 7};
  advice = (rp_advice){7, 7};
}

/* Whether it is still so. */
static bool is_same(void) {
  bool same = used == 7 && reason == 7 && found.records == 7 && found.kept == 7 && found.tail == 7 &&
              found.reason == 7 && found.line == 7 && lengths.stored == 7 && lengths.used == 7 &&
              step.stored == 7 && step.used == 7 && step.packets == 7 && step.dropped == 7 && ends[0] == 7 &&
              patience.applied == 7 && patience.tries == 7 && patience.quiet == 7 && patience.led == 7 &&
              patience.asked == 7 && patience.idle == 7 && advice.kind == 7 &&
              advice.position == 7;
  for (size_t at = 0; at < sizeof answer; at++) {
    same = same && answer[at] == 7;
  }
  return same;
}

static void say(const char *what, uint8_t status) {
  printf("%s: status %d, %s\n", what, status, is_same() ? "the same" : "changed");
  fill();
}

/* The calls that open, with a null each: the handles stay as they are. */
static void opens(size_t count) {
  say("open: deck", rp_node_open(NULL, count, 1, packet, 0, &node, &found));
  say("open: device", rp_node_open(deck, count, 1, NULL, 1, &node, &found));
  say("open: node", rp_node_open(deck, count, 1, packet, 0, NULL, &found));
  say("open: found", rp_node_open(deck, count, 1, packet, 0, &node, NULL));
  say("open a device: deck", rp_device_open(NULL, count, 1, packet, 0, &node, &found));
  say("open a device: device", rp_device_open(deck, count, 1, NULL, 1, &node, &found));
  say("open a device: node", rp_device_open(deck, count, 1, packet, 0, NULL, &found));
  say("open a device: found", rp_device_open(deck, count, 1, packet, 0, &node, NULL));
  say("header: deck", rp_device_header(NULL, count, 1, answer, sizeof answer));
  say("header: header", rp_device_header(deck, count, 1, NULL, sizeof answer));
  say("open a task: task", rp_task_open(1, NULL));
  say("open a task after: task", rp_task_open_after(1, 7, NULL));
}

/* The calls by an open handle, with a null each. */
static void calls(void) {
  say("call: node", rp_node_call(NULL, applied, 1, answer, sizeof answer, &lengths));
  say("call: request", rp_node_call(&node, NULL, 1, answer, sizeof answer, &lengths));
  say("call: answer", rp_node_call(&node, applied, 1, NULL, sizeof answer, &lengths));
  say("call: lengths", rp_node_call(&node, applied, 1, answer, sizeof answer, NULL));
  say("step: node", rp_node_step(NULL, applied, 1, answer, sizeof answer, ends, 4, &step));
  say("step: request", rp_node_step(&node, NULL, 1, answer, sizeof answer, ends, 4, &step));
  say("step: answer", rp_node_step(&node, applied, 1, NULL, sizeof answer, ends, 4, &step));
  say("step: ends", rp_node_step(&node, applied, 1, answer, sizeof answer, NULL, 4, &step));
  say("step: step", rp_node_step(&node, applied, 1, answer, sizeof answer, ends, 4, NULL));
  say("receive: node", rp_node_receive(NULL, packet, 14, answer, sizeof answer, ends, 4, &step));
  say("receive: packet", rp_node_receive(&node, NULL, 14, answer, sizeof answer, ends, 4, &step));
  say("receive: answer", rp_node_receive(&node, packet, 14, NULL, sizeof answer, ends, 4, &step));
  say("receive: ends", rp_node_receive(&node, packet, 14, answer, sizeof answer, NULL, 4, &step));
  say("receive: step", rp_node_receive(&node, packet, 14, answer, sizeof answer, ends, 4, NULL));
  say("advise: node", rp_node_advise(NULL, &patience, 7, &advice));
  say("advise: patience", rp_node_advise(&node, NULL, 7, &advice));
  say("advise: advice", rp_node_advise(&node, &patience, 7, NULL));
  say("next deck: node", rp_next_deck(NULL, deck, 1, answer, sizeof answer, &used));
  say("next deck: deck", rp_next_deck(&node, NULL, 1, answer, sizeof answer, &used));
  say("next deck: answer", rp_next_deck(&node, deck, 1, NULL, 1, &used));
  say("next deck: used", rp_next_deck(&node, deck, 1, answer, sizeof answer, NULL));
  say("a task receives: task", rp_task_receive(NULL, packet, 14, answer, sizeof answer, &lengths));
  say("a task receives: packet", rp_task_receive(&task, NULL, 14, answer, sizeof answer, &lengths));
  say("a task receives: answer", rp_task_receive(&task, packet, 14, NULL, sizeof answer, &lengths));
  say("a task receives: lengths", rp_task_receive(&task, packet, 14, answer, sizeof answer, NULL));
  say("lead: room", rp_node_lead(&node, NULL));
  say("take: room", rp_node_take(&node, packet, 14, NULL));
  say("pending: number", rp_node_pending(&node, NULL));
  say("a procedure: packet", rp_task_procedure(&task, 1, 1, 1, 7, NULL));
  say("again: packet", rp_task_again(&task, 1, NULL));
  say("a reply: reply", rp_task_take(&task, packet, 14, NULL));
  say("call a task: task", rp_task_call(NULL, again, 2, answer, sizeof answer, &lengths));
  say("call a task: request", rp_task_call(&task, NULL, 2, answer, sizeof answer, &lengths));
  say("call a task: answer", rp_task_call(&task, again, 2, NULL, sizeof answer, &lengths));
  say("call a task: lengths", rp_task_call(&task, again, 2, answer, sizeof answer, NULL));
}

int main(void) {
  size_t count = fread(deck, 1, sizeof deck, stdin);
  fill();
  say("length: bytes", rp_packet_length(NULL, 14, &used));
  say("length: length", rp_packet_length(packet, 14, NULL));
  say("length: no bytes", rp_packet_length(NULL, 0, &used));
  say("check: bytes", rp_packet_check(NULL, 14, &reason));
  say("check: reason", rp_packet_check(packet, 14, NULL));
  say("run: deck", rp_run_deck(NULL, count, false, answer, sizeof answer, &used));
  say("run: answer", rp_run_deck(deck, count, false, NULL, 1, &used));
  say("run: used", rp_run_deck(deck, count, false, answer, sizeof answer, NULL));
  say("run: no answer", rp_run_deck(deck, count, false, NULL, 0, &used));

  opens(count);
  printf("open %d %d\n", node.open, task.open);
  say("open a node with no device", rp_node_open(deck, count, 1, NULL, 0, &node, &found));
  say("open a task", rp_task_open(1, &task));
  opens(count);
  printf("open %d %d\n", node.open, task.open);

  calls();
  say("a call", rp_node_call(&node, applied, 1, answer, sizeof answer, &lengths));
  say("a step with no ends", rp_node_step(&node, applied, 1, answer, sizeof answer, NULL, 0, &step));
  say("no request", rp_node_call(&node, NULL, 0, answer, sizeof answer, &lengths));
  say("the task's call", rp_task_call(&task, again, 2, answer, sizeof answer, &lengths));

  rp_node_close(NULL);
  rp_task_close(NULL);
  printf("open %d %d\n", node.open, task.open);
  rp_node_close(&node);
  rp_task_close(&task);
  return 0;
}

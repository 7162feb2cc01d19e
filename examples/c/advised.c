/* Stations that go on by advice alone: a call that comes early, a stray call, a gap, a node that comes back to a quiet
 * cluster, a cluster without node 1, a call that one node has alone, and when the next timer is due. Three nodes of a
 * deck with a gate, over byte arrays; in each turn of a millisecond each node does what the advice says. */
#include <stdio.h>
#include <stdlib.h>
#include <string.h>

#include "rp.h"

enum { NODES = 3, GUEST = 1, KEEPER = 2, MOST_BYTES = 1 << 18, READ = 1, LIFT = 1, PASS = 1 };

static const char deck[] = "nodes 3\npositions 1000\ntask guest 5\ntask keeper 5\nobject gate 9\nint n 0 1000000 0\n"
                           "bool up false\nfunction read value n\nprocedure lift\nput up true\nend\n"
                           "entry pass when up\nput up false\nset n add n 1\nout n\nend\n"
                           "timer soon gate.lift\ntimer later gate.lift\nscript\n";

/* A node, its device, and how it is advised; `away` loses all that is sent to it. */
static struct { rp_node node; rp_patience patience; uint8_t asked; bool away; uint8_t bytes[MOST_BYTES]; size_t length; } at[NODES + 1];
static rp_task tasks[KEEPER + 1];
static rp_call_reply replies[KEEPER + 1];
static struct { uint8_t bytes[MOST_BYTES]; size_t length; } queue, handed;
static uint8_t answer[RP_STEP_BYTES];
static size_t ends[64];
static rp_room room = {answer, sizeof answer, ends, 64, {0, 0, 0, 0}};

static void must(uint8_t status, const char *what) {
  if (status != RP_DONE) {
    printf("%s: status %d\n", what, status);
    exit(1);
  }
}

static void send_packets(const uint8_t *bytes, size_t count) {
  memcpy(queue.bytes + queue.length, bytes, count);
  queue.length += count;
}

/* After a step: its record is put on the device, and only then are its packets sent. */
static void keep(uint8_t number, uint8_t status) {
  must(status, "a step");
  memcpy(at[number].bytes + at[number].length, answer, room.step.stored);
  at[number].length += room.step.stored;
  send_packets(answer + room.step.stored, room.step.used - room.step.stored);
}

static void deliver_one(const uint8_t *packet, size_t length) {
  uint8_t to = packet[3];
  if (to > RP_TASK_PARTY) {
    rp_call_reply reply = {0, 0};
    must(rp_task_take(&tasks[to - RP_TASK_PARTY], packet, length, &reply), "a reply");
    if (reply.kind != 0) replies[to - RP_TASK_PARTY] = reply;
  } else if (!at[to].away) {
    keep(to, rp_node_take(&at[to].node, packet, length, &room));
  }
}

/* Delivers what was sent, and what is sent by that. */
static void deliver(void) {
  while (queue.length > 0) {
    handed = queue;
    queue.length = 0;
    for (size_t from = 0, length = 0; from < handed.length; from += length) {
      must(rp_packet_length(handed.bytes + from, handed.length - from, &length), "a packet");
      deliver_one(handed.bytes + from, length);
    }
  }
}

/* A node does what the advice says, until it says nothing. */
static void advise(uint8_t number, uint64_t turns) {
  rp_advice advice = {RP_ADVICE_NOTHING, 0};
  do {
    must(rp_node_advise(&at[number].node, &at[number].patience, turns, &advice), "advice");
    if (advice.kind == RP_ADVICE_LEAD) keep(number, rp_node_lead_at(&at[number].node, advice.position, &room));
    if (advice.kind == RP_ADVICE_ASK) {
      do at[number].asked = (uint8_t)(at[number].asked % NODES + 1);
      while (at[number].asked == number);
      keep(number, rp_node_ask(&at[number].node, at[number].asked, &room));
    }
    turns = 0;
  } while (advice.kind != RP_ADVICE_NOTHING);
}

static void turn(void) {
  for (uint8_t number = 1; number <= NODES; number++) {
    if (!at[number].away) advise(number, 1);
    deliver();
  }
}

static uint32_t applied(uint8_t number) {
  uint32_t count = 0;
  must(rp_node_applied(&at[number].node, &count), "applied");
  return count;
}

/* A task's call through a node; what the node did not take of it. */
static uint8_t call(uint8_t task, uint8_t number, uint8_t operation, uint8_t index) {
  rp_call_packet packet = {{0}, 0};
  replies[task].kind = 0;
  must(rp_task_operation(&tasks[task], number, 1, operation, index, 0, &packet), "a call");
  keep(number, rp_node_take(&at[number].node, packet.bytes, packet.count, &room));
  return room.step.dropped;
}

/* The task's call, again; what the node did not take of it. */
static uint8_t again(uint8_t task, uint8_t number) {
  rp_call_packet packet = {{0}, 0};
  must(rp_task_again(&tasks[task], number, &packet), "again");
  if (packet.count == 0) return RP_DROPPED_NOTHING;
  keep(number, rp_node_take(&at[number].node, packet.bytes, packet.count, &room));
  return room.step.dropped;
}

/* Turns until the task has its reply, for which it sends its call again after each 100. */
static unsigned turns_to_reply(uint8_t task, uint8_t number) {
  unsigned turns = 0;
  while (replies[task].kind == 0 && turns < 100000) {
    turn();
    if (++turns % 100 == 0) again(task, number);
  }
  return turns;
}

static void open_node(uint8_t number) {
  rp_found found;
  must(rp_node_open((const uint8_t *)deck, sizeof deck - 1, number, at[number].bytes, at[number].length, &at[number].node, &found), "open");
  at[number].patience = (rp_patience)RP_NO_WAIT;
}

static void open_all(const char *story) {
  printf("%s\n", story);
  for (uint8_t number = 1; number <= NODES; number++) {
    at[number].length = 0, at[number].away = false;
    open_node(number);
  }
  must(rp_task_open(GUEST, &tasks[GUEST]), "guest");
  must(rp_task_open(KEEPER, &tasks[KEEPER]), "keeper");
  queue.length = 0;
}

/* The guest stops while its call waits at the closed gate, and goes on. */
static void a_task_goes_on(void) {
  open_all("A task that stopped while it waited");
  call(GUEST, 1, RP_ENTRY, PASS);
  turn();
  uint32_t most = 0, before = applied(1);
  for (uint8_t number = 1; number <= NODES; number++) {
    uint32_t counted = 0;
    must(rp_node_counted(&at[number].node, GUEST, &counted), "counted");
    if (counted > most) most = counted;
  }
  must(rp_task_open_after(GUEST, most, &tasks[GUEST]), "guest");
  printf("  its call %u waits; its next one is dropped by %d\n", most, call(GUEST, 1, RP_FUNCTION, READ));
  for (unsigned turns = 0; turns < 1000; turns++) turn();
  printf("  1000 turns later positions used: %u\n", applied(1) - before);
  call(KEEPER, 1, RP_PROCEDURE, LIFT);
  turns_to_reply(KEEPER, 1);
  unsigned turns = turns_to_reply(GUEST, 1);
  printf("  the gate is lifted; the next call has its reply %d within %u turns, positions used: %u\n", replies[GUEST].kind,
         turns, applied(1) - before);
}

/* A call with a number that is too high comes, again and again. */
static void a_stray_call(void) {
  open_all("A stray call");
  rp_task stray = RP_CLOSED;
  rp_call_packet packet = {{0}, 0};
  uint8_t dropped = RP_DROPPED_NOTHING;
  must(rp_task_open_after(GUEST, 76, &stray), "stray");
  must(rp_task_function(&stray, 1, 1, READ, 0, &packet), "a call");
  for (unsigned turns = 0; turns < 1000; turns++) {
    keep(1, rp_node_take(&at[1].node, packet.bytes, packet.count, &room));
    dropped = room.step.dropped;
    turn();
  }
  printf("  dropped by %d, positions used: %u\n", dropped, applied(1));
  call(KEEPER, 1, RP_PROCEDURE, LIFT);
  turns_to_reply(KEEPER, 1);
  printf("  another task's call has its reply %d, positions used: %u\n", replies[KEEPER].kind, applied(1));
  rp_task_close(&stray);
}

/* The packets of a lead are lost, and the next call is decided above it. */
static void a_gap(void) {
  open_all("A gap");
  call(GUEST, 1, RP_FUNCTION, READ);
  advise(1, 0);
  queue.length = 0;
  call(KEEPER, 1, RP_PROCEDURE, LIFT);
  turns_to_reply(KEEPER, 1);
  turns_to_reply(GUEST, 1);
  printf("  both have their replies %d and %d, positions used: %u\n", replies[GUEST].kind, replies[KEEPER].kind, applied(1));
}

/* Node 3 is away for 200 calls, and comes back when nothing happens any more. */
static void a_node_comes_back(void) {
  open_all("A node that comes back to a quiet cluster");
  at[3].away = true;
  for (int made = 0; made < 200; made++) {
    call(KEEPER, 1, RP_PROCEDURE, LIFT);
    turns_to_reply(KEEPER, 1);
  }
  at[3].away = false;
  open_node(3);
  unsigned turns = 0;
  for (; applied(3) < applied(1) && turns < 100000; turns++) turn();
  printf("  it missed %u positions, and has them after %u turns\n", applied(1), turns);
}

/* Node 1 is away: node 2 begins once its wait is over, and then leads on. */
static void without_node_1(void) {
  open_all("Without node 1");
  at[1].away = true;
  for (int made = 1; made <= 101; made++) {
    call(KEEPER, 2, RP_PROCEDURE, LIFT);
    unsigned turns = turns_to_reply(KEEPER, 2);
    if (made == 1 || made == 2 || made == 101) printf("  call %d has its reply after %u turns\n", made, turns);
  }
  printf("  positions used: %u\n", applied(2));
}

/* A call comes to node 2 alone while node 1 is busy: its task sends it again, through the next node each time. */
static void a_busy_cluster(void) {
  open_all("A call that one node has, while another leads");
  uint8_t number = 2;
  unsigned turns = 0, calls = 0;
  call(GUEST, number, RP_FUNCTION, READ);
  for (; replies[GUEST].kind == 0 && turns < 1000; turns++) {
    if (calls == 0 || replies[KEEPER].kind != 0) call(KEEPER, 1, RP_PROCEDURE, LIFT), calls++;
    turn();
    if (turns % 8 == 7) number = number % NODES + 1, again(GUEST, number);
  }
  printf("  it has its reply after %u turns and %u calls of another task\n", turns, calls);
}

static void print_next_timer(void) {
  bool is_set = false;
  int64_t time = 0;
  must(rp_node_next_timer(&at[1].node, &room, &is_set, &time), "the next timer");
  if (is_set) printf("  the next timer is due at %lld\n", (long long)time);
  else printf("  no timer is set\n");
}

/* The keeper sets a timer, or cancels it if the time is negative. */
static void set_timer(uint8_t index, int64_t time) {
  rp_call_packet packet = {{0}, 0};
  replies[KEEPER].kind = 0;
  if (time < 0) must(rp_task_cancel_timer(&tasks[KEEPER], 1, 1, index, &packet), "a call");
  else must(rp_task_set_timer(&tasks[KEEPER], 1, 1, index, time, &packet), "a call");
  keep(1, rp_node_take(&at[1].node, packet.bytes, packet.count, &room));
  turns_to_reply(KEEPER, 1);
  print_next_timer();
}

static void timers(void) {
  open_all("Timers");
  print_next_timer();
  set_timer(2, 9223372036854775807);
  set_timer(1, 70);
  set_timer(1, -1);
}

int main(void) {
  a_task_goes_on();
  a_stray_call();
  a_gap();
  a_node_comes_back();
  without_node_1();
  a_busy_cluster();
  timers();
  for (uint8_t number = 1; number <= NODES; number++) rp_node_close(&at[number].node);
  rp_task_close(&tasks[GUEST]);
  rp_task_close(&tasks[KEEPER]);
  return 0;
}

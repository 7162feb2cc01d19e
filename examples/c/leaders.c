/* Who leads: what nodes are advised to do, what is pending, and a task that restarts. Three nodes of a deck with a
 * gate, over byte arrays, by typed calls. */
#include <stdio.h>
#include <stdlib.h>
#include <string.h>

#include "rp.h"

enum { NODES = 3, MOST_BYTES = 16384 };

static const char deck[] = "nodes 3\npositions 70\ntask guest 5\ntask keeper 5\nobject gate 9\nint n 0 100 0\n"
                           "bool up false\nprocedure open\nput up true\nset n add n 1\nout n\nend\n"
                           "entry pass when up\nput up false\nout n\nend\nscript\n";

/* A device, and the packets that were sent and not delivered. */
static struct { uint8_t bytes[MOST_BYTES]; size_t length; } devices[NODES + 1], queue;
static rp_node nodes[NODES + 1]; /* closed, since they are all zero */
static rp_patience patience[NODES + 1];
static rp_task guest = RP_CLOSED, keeper = RP_CLOSED;
static uint8_t answer[RP_STEP_BYTES];
static size_t ends[NODES + 1];

static void must(uint8_t status, const char *what) {
  if (status != RP_DONE) {
    printf("%s: status %d\n", what, status);
    exit(1);
  }
}

static void send_packet(const uint8_t *bytes, size_t count) {
  memcpy(queue.bytes + queue.length, bytes, count);
  queue.length += count;
}

/* After a step: its record is put on the device, and only then are its packets sent. */
static void store(uint8_t number, const rp_room *room) {
  memcpy(devices[number].bytes + devices[number].length, room->answer, room->step.stored);
  devices[number].length += room->step.stored;
  send_packet(room->answer + room->step.stored, room->step.used - room->step.stored);
}

static void take(const char *name, rp_task *task, const uint8_t *packet, size_t count) {
  rp_call_reply reply = {0, 0};
  must(rp_task_take(task, packet, count, &reply), "a reply");
  if (reply.kind != 0) {
    printf("  reply to %s: kind %d, value %lld\n", name, reply.kind, (long long)reply.value);
  }
}

/* Delivers all packets but those to or from one node, which are lost; each is received where it lies. */
static void deliver_but(uint8_t lost_to, uint8_t lost_from) {
  for (size_t from = 0; from < queue.length;) {
    const uint8_t *packet = queue.bytes + from;
    size_t length = 0;
    must(rp_packet_length(packet, queue.length - from, &length), "a packet");
    from += length;
    if (packet[3] == RP_TASK_PARTY + 1) {
      take("guest", &guest, packet, length);
    } else if (packet[3] == RP_TASK_PARTY + 2) {
      take("keeper", &keeper, packet, length);
    } else if (packet[3] != lost_to && packet[2] != lost_from) {
      rp_room room = {answer, sizeof answer, ends, NODES + 1, {0, 0, 0, 0}};
      must(rp_node_take(&nodes[packet[3]], packet, length, &room), "a packet");
      store(packet[3], &room);
    }
  }
  queue.length = 0;
}

static void deliver(void) { deliver_but(0, 0); }

static void lead_at(uint8_t number, uint16_t position) {
  rp_room room = {answer, sizeof answer, NULL, 0, {0, 0, 0, 0}};
  must(rp_node_lead_at(&nodes[number], position, &room), "a lead");
  store(number, &room);
}

static void advise(uint8_t number, uint64_t turns) {
  rp_advice advice = {9, 9};
  must(rp_node_advise(&nodes[number], &patience[number], turns, &advice), "advice");
  printf("node %d after %llu turns: advice %d, position %d\n", number, (unsigned long long)turns, advice.kind,
         advice.position);
}

static void show(uint8_t number) {
  uint32_t applied = 99, left = 99, pending = 99, counted[2] = {99, 99};
  must(rp_node_applied(&nodes[number], &applied), "applied");
  must(rp_node_left(&nodes[number], &left), "left");
  must(rp_node_pending(&nodes[number], &pending), "pending");
  must(rp_node_counted(&nodes[number], 1, &counted[0]), "counted");
  must(rp_node_counted(&nodes[number], 2, &counted[1]), "counted");
  printf("node %d: applied %u, left %u, pending %u, counted %u and %u\n", number, applied, left, pending, counted[0],
         counted[1]);
}

static void open_all(void) {
  rp_found found;
  for (uint8_t number = 1; number <= NODES; number++) {
    must(rp_node_open((const uint8_t *)deck, sizeof deck - 1, number, NULL, 0, &nodes[number], &found), "open");
  }
  must(rp_task_open(1, &guest), "guest");
  must(rp_task_open(2, &keeper), "keeper");
}

/* The guest's call waits at the closed gate: it counted, and nobody leads for it. */
static void a_call_waits(void) {
  rp_call_packet packet = {{0}, 0};
  must(rp_task_entry(&guest, 2, 1, 1, 0, &packet), "pass");
  send_packet(packet.bytes, packet.count);
  deliver();
  show(2);
  advise(2, 63);
  advise(2, 1);
  lead_at(2, 1);
  show(2);
  queue.length = 0; /* all its packets are lost */
  advise(2, 63);
  advise(2, 1);
  lead_at(2, 1);
  deliver();
  show(2);
  advise(2, 1000000);
}

/* The keeper opens the gate through node 1, which waits, since node 2 led last. Node 3 gets none of these packets, and those that
 * it sends of itself are lost: it misses position 2, and is advised to ask. */
static void node_3_misses_a_position(void) {
  rp_call_packet packet = {{0}, 0};
  must(rp_task_procedure(&keeper, 1, 1, 1, 0, &packet), "open");
  send_packet(packet.bytes, packet.count);
  deliver();
  advise(1, 31);
  advise(1, 1);
  lead_at(1, 2);
  deliver_but(3, 0);
  show(1);
  must(rp_task_procedure(&keeper, 1, 1, 1, 0, &packet), "open");
  send_packet(packet.bytes, packet.count);
  deliver();
  advise(1, 0);
  lead_at(1, 3);
  deliver_but(0, 3);
  show(3);
  advise(3, 95);
  advise(3, 1);
  advise(3, 95);
}

/* Nobody answers node 3. To it the guest's first call still waits, so the second one comes early. It is to note a tick, so it
 * has something to decide, and leads where it asked; then it takes the guest's call, and leads on at once, since it led last. */
static void node_3_leads_where_it_asked(void) {
  rp_room room = {answer, sizeof answer, ends, NODES + 1, {0, 0, 0, 0}};
  rp_call_packet packet = {{0}, 0};
  must(rp_task_entry(&guest, 3, 1, 1, 0, &packet), "pass");
  must(rp_node_take(&nodes[3], packet.bytes, packet.count, &room), "a call");
  printf("a call that comes early: dropped %d, packets %zu\n", room.step.dropped, room.step.packets);
  must(rp_node_tick(&nodes[3], 5, &room), "a tick");
  show(3);
  advise(3, 1);
  lead_at(3, 2);
  deliver();
  show(3);
  advise(3, 95);
  advise(3, 1);
  lead_at(3, 4);
  deliver();
  show(3);
  must(rp_task_again(&guest, 3, &packet), "again");
  send_packet(packet.bytes, packet.count);
  deliver();
  advise(3, 0);
  lead_at(3, 5);
  deliver();
  show(3);
  advise(3, 95);
  advise(3, 1);
}

/* The keeper restarts. It had the replies to its two calls; its first call changes nothing. */
static void the_keeper_restarts(void) {
  rp_call_packet packet = {{0}, 0};
  rp_task_close(&keeper);
  must(rp_task_open_after(2, 2, &keeper), "keeper");
  must(rp_task_again(&keeper, 1, &packet), "again");
  printf("again: %zu bytes\n", packet.count);
  must(rp_task_operation(&keeper, 1, 1, RP_CANCEL_TIMER, 1, 0, &packet), "nothing changes");
  send_packet(packet.bytes, packet.count);
  deliver();
  lead_at(1, 6);
  deliver();
  must(rp_task_procedure(&keeper, 1, 1, 1, 0, &packet), "open");
  send_packet(packet.bytes, packet.count);
  deliver();
  lead_at(1, 7);
  deliver();
  show(1);
}

static void refusals(void) {
  rp_node closed = RP_CLOSED;
  rp_patience wait = RP_NO_WAIT;
  rp_advice advice = {9, 9};
  uint32_t number = 99;
  rp_room room = {answer, sizeof answer, ends, NODES + 1, {0, 0, 0, 0}};
  printf("closed: %d", rp_node_advise(&closed, &wait, 5, &advice));
  printf(" %d", rp_node_take(&closed, answer, 0, &room));
  printf(" %d", rp_node_pending(&closed, &number));
  printf(", task: %d %d\n", rp_task_open_after(9, 1, &keeper), rp_task_open_after(0, 1, &keeper));
  printf("counted 0: %d, 9: %d\n", rp_node_counted(&nodes[1], 0, &number), rp_node_counted(&nodes[1], 9, &number));
  printf("no packet: %d\n", rp_node_take(&nodes[1], (const uint8_t *)"no packet", 9, &room));
  printf("range of 0: %d\n", rp_node_lead_range(&nodes[1], 6, 0, &room));
  printf("interrupt 0: %d\n", rp_node_interrupt(&nodes[1], 1, 0, &room));
  printf("as it was: %u, %d %d, %llu\n", number, advice.kind, advice.position, (unsigned long long)wait.quiet);
}

int main(void) {
  open_all();
  a_call_waits();
  node_3_misses_a_position();
  node_3_leads_where_it_asked();
  the_keeper_restarts();
  refusals();
  for (uint8_t number = 1; number <= NODES; number++) {
    rp_node_close(&nodes[number]);
  }
  rp_task_close(&guest);
  rp_task_close(&keeper);
  return 0;
}

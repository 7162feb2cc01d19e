/* How many calls a second clusters answer that go on by advice alone, while packets are lost and nodes are away: nodes and
 * tasks by handle in one process, in virtual time.
 *
 *   simulation      prints a table; its status is 0 if all holds that its last line says
 *
 * A packet takes 50 to 100 microseconds, a sync of a device 50, and a turn of a node's patience TURN, so that four turns are
 * longer than a decision takes. Each task makes its next call once it has the reply to its last one; if it has no reply after
 * TASK_WAIT it sends its call again, through the next node. A node that is away gets nothing and does nothing.
 *
 * Where nothing was applied for a turn a node hands those packets on again by which it proposed at positions that are not
 * applied. It keeps them for that: what a step gave may be handed on again at any time while its node is open. */
#include <stdio.h>
#include <stdlib.h>
#include <string.h>

#include "rp.h"

enum { MOST_NODES = 7, TASKS = 4, POSITIONS = 65535, MOST_PACKET = 64, MOST_EVENTS = 1 << 16, SEEDS = 2, SECONDS = 1 };
enum { KEPT = 16, KIND = 1, FROM = 2, TO = 3, PLACE = 4, PREPARE = 2, ACCEPT = 4 };
enum { SYNC = 50, LEAST_DELAY = 50, MORE_DELAY = 51, TURN = 250, TASK_WAIT = 8 * TURN, LOSSES = 4 };

/* What may happen: a packet arrives, a node's clock turns, or a task has waited. */
enum kind { ARRIVES, TURNS, WAITS };

struct event {
  uint64_t time, order;
  enum kind kind;
  uint8_t party; /* the node or the task */
  uint32_t call; /* of a wait, the call for which the task waits */
  size_t length;
  uint8_t packet[MOST_PACKET];
};

/* A cluster: how many nodes, which of them are away, and the nodes to which the tasks send their first calls: the last of
 * them to `last`, the others to `first`. */
struct cluster {
  const char *name;
  uint8_t nodes, away[MOST_NODES + 1], first, last;
};

/* The packets by which a node proposed at a position. */
struct kept {
  uint32_t position;
  size_t count, ends[MOST_NODES];
  uint8_t bytes[MOST_NODES * MOST_PACKET];
};

static struct event events[MOST_EVENTS];
static size_t waiting;
static uint64_t now, order, random_state;
static unsigned loss; /* in a hundred */
static const struct cluster *cluster;
static struct { rp_node node; rp_patience patience; uint64_t free; uint8_t asked; uint32_t applied; struct kept kept[KEPT]; } at[MOST_NODES + 1];
static struct { rp_task task; uint8_t node; uint32_t calls; } by[TASKS + 1];
static uint8_t answer[RP_STEP_BYTES];
static size_t ends[64];
static rp_room room = {answer, sizeof answer, ends, 64, {0, 0, 0, 0}};

static uint64_t random_below(uint64_t most) {
  random_state ^= random_state << 13;
  random_state ^= random_state >> 7;
  random_state ^= random_state << 17;
  return (random_state >> 11) % most;
}

/* ---- what is to happen, the earliest first */

static bool is_before(const struct event *one, const struct event *other) {
  return one->time < other->time || (one->time == other->time && one->order < other->order);
}

static void await(struct event event) {
  if (waiting == MOST_EVENTS) abort();
  event.order = order++;
  size_t place = waiting++;
  for (; place > 0 && is_before(&event, &events[(place - 1) / 2]); place = (place - 1) / 2) {
    events[place] = events[(place - 1) / 2];
  }
  events[place] = event;
}

static struct event next_event(void) {
  struct event first = events[0], last = events[--waiting];
  size_t place = 0;
  for (size_t below = 1; below < waiting; below = 2 * place + 1) {
    if (below + 1 < waiting && is_before(&events[below + 1], &events[below])) below++;
    if (!is_before(&events[below], &last)) break;
    events[place] = events[below];
    place = below;
  }
  events[place] = last;
  return first;
}

/* ---- packets */

/* Hands a packet on at this time, or loses it; a node's packet to itself is not lost. */
static void send_packet(uint64_t time, const uint8_t *packet, size_t length) {
  uint8_t to = packet[3];
  struct event event = {time, 0, ARRIVES, to, 0, length, {0}};
  if (to <= MOST_NODES && cluster->away[to]) return;
  if (packet[2] != to) {
    if (random_below(100) < loss) return;
    event.time += LEAST_DELAY + random_below(MORE_DELAY);
  }
  if (length > MOST_PACKET) abort();
  memcpy(event.packet, packet, length);
  await(event);
}

/* Keeps the packets by which a node proposes, until it proposes again in the same place. */
static void keep_proposal(uint8_t number, const uint8_t *packets) {
  if (room.step.packets == 0 || room.step.packets > MOST_NODES || (packets[KIND] != PREPARE && packets[KIND] != ACCEPT)) return;
  uint32_t position = (uint32_t)packets[PLACE] << 8 | packets[PLACE + 1];
  struct kept *kept = &at[number].kept[position % KEPT];
  kept->position = position;
  kept->count = room.step.packets;
  memcpy(kept->ends, ends, kept->count * sizeof *ends);
  memcpy(kept->bytes, packets, ends[kept->count - 1]);
}

/* Hands those packets on again that are of positions which are not applied, if nothing was applied for a turn. */
static void propose_again(uint8_t number) {
  uint32_t applied = 0;
  if (rp_node_applied(&at[number].node, &applied) != RP_DONE) abort();
  for (uint32_t position = applied + 1; applied == at[number].applied && position <= applied + KEPT; position++) {
    struct kept *kept = &at[number].kept[position % KEPT];
    if (kept->position != position) continue;
    for (size_t place = 0, start = 0; place < kept->count; start = kept->ends[place++]) {
      if (kept->bytes[start + TO] != number) send_packet(now, kept->bytes + start, kept->ends[place] - start);
    }
  }
  at[number].applied = applied;
}

/* Keeps what a step gave: its packets leave once its record is synced. */
static void keep(uint8_t number, uint8_t status) {
  if (status != RP_DONE) return;
  if (room.step.stored > 0) at[number].free = (at[number].free > now ? at[number].free : now) + SYNC;
  uint64_t leave = at[number].free > now ? at[number].free : now;
  for (size_t place = 0, start = 0; place < room.step.packets; start = ends[place++]) {
    send_packet(leave, answer + room.step.stored + start, ends[place] - start);
  }
  keep_proposal(number, answer + room.step.stored);
}

/* ---- nodes */

static void ask_another(uint8_t number) {
  do at[number].asked = (uint8_t)(at[number].asked % cluster->nodes + 1);
  while (at[number].asked == number);
  keep(number, rp_node_ask(&at[number].node, at[number].asked, &room));
}

/* The node does what the advice says, until it says nothing. */
static void do_what_is_advised(uint8_t number, uint64_t turns) {
  rp_advice advice = {RP_ADVICE_NOTHING, 0};
  do {
    if (rp_node_advise(&at[number].node, &at[number].patience, turns, &advice) != RP_DONE) abort();
    if (advice.kind == RP_ADVICE_LEAD) keep(number, rp_node_lead_at(&at[number].node, advice.position, &room));
    if (advice.kind == RP_ADVICE_ASK) ask_another(number);
    turns = 0;
  } while (advice.kind != RP_ADVICE_NOTHING);
}

/* ---- tasks */

static void send_call(uint8_t task, const rp_call_packet *packet) {
  struct event wait = {now + TASK_WAIT, 0, WAITS, task, by[task].calls, 0, {0}};
  if (packet->count > 0) send_packet(now, packet->bytes, packet->count);
  await(wait);
}

static void make_call(uint8_t task) {
  rp_call_packet packet = {{0}, 0};
  if (rp_task_procedure(&by[task].task, by[task].node, 1, 1, 1, &packet) != RP_DONE) abort();
  by[task].calls++;
  send_call(task, &packet);
}

/* The task's call has no reply: it is sent again, through the next node. */
static void call_again(uint8_t task) {
  rp_call_packet packet = {{0}, 0};
  by[task].node = (uint8_t)(by[task].node % cluster->nodes + 1);
  if (rp_task_again(&by[task].task, by[task].node, &packet) != RP_DONE) abort();
  send_call(task, &packet);
}

/* ---- a run */

static void happen(const struct event *event) {
  uint8_t party = event->party;
  if (event->kind == TURNS) {
    struct event turn = {now + TURN, 0, TURNS, party, 0, 0, {0}};
    do_what_is_advised(party, 1);
    propose_again(party);
    await(turn);
  } else if (event->kind == WAITS) {
    if (event->call == by[party].calls) call_again(party);
  } else if (party > RP_TASK_PARTY) {
    rp_call_reply reply = {0, 0};
    if (rp_task_take(&by[party - RP_TASK_PARTY].task, event->packet, event->length, &reply) != RP_DONE) abort();
    if (reply.kind == 0) return;
    make_call(party - RP_TASK_PARTY);
  } else {
    keep(party, rp_node_take(&at[party].node, event->packet, event->length, &room));
    do_what_is_advised(party, 0);
  }
}

static void begin(uint64_t seed) {
  char deck[300];
  int length = snprintf(deck, sizeof deck, "nodes %d\npositions %d\ntask a 5\ntask b 5\ntask c 5\ntask d 5\nobject sum 9\n"
                        "int n 0 1000000 0\nprocedure add\nset n add n arg\nout n\nend\nscript\n", cluster->nodes, POSITIONS);
  waiting = 0, now = 0, order = 0, random_state = seed * 2654435761u + 1;
  for (uint8_t number = 1; number <= cluster->nodes; number++) {
    struct event turn = {random_below(TURN), 0, TURNS, number, 0, 0, {0}};
    rp_found found;
    if (rp_node_open((const uint8_t *)deck, (size_t)length, number, NULL, 0, &at[number].node, &found) != RP_DONE) abort();
    at[number].patience = (rp_patience)RP_NO_WAIT;
    at[number].free = 0, at[number].asked = number, at[number].applied = 0;
    memset(at[number].kept, 0, sizeof at[number].kept);
    if (!cluster->away[number]) await(turn);
  }
  for (uint8_t task = 1; task <= TASKS; task++) {
    if (rp_task_open(task, &by[task].task) != RP_DONE) abort();
    by[task].node = task == TASKS ? cluster->last : cluster->first, by[task].calls = 0;
    make_call(task);
  }
}

/* The most actions that a node has applied. */
static uint32_t most_applied(void) {
  uint32_t most = 0, applied = 0;
  for (uint8_t number = 1; number <= cluster->nodes; number++) {
    if (rp_node_applied(&at[number].node, &applied) == RP_DONE && applied > most) most = applied;
  }
  return most;
}

/* How many calls were answered, of all tasks and of the one that has the fewest; and how many positions were used. */
struct rate {
  uint32_t calls, fewest, positions;
};

static void run(uint64_t seed, struct rate *rate) {
  begin(seed);
  while (now < SECONDS * 1000000u) {
    struct event event = next_event();
    now = event.time;
    happen(&event);
  }
  for (uint8_t task = 1; task <= TASKS; task++) {
    uint32_t calls = by[task].calls - 1;
    rate->calls += calls;
    if (calls < rate->fewest) rate->fewest = calls;
    rp_task_close(&by[task].task);
  }
  rate->positions += most_applied();
  for (uint8_t number = 1; number <= cluster->nodes; number++) rp_node_close(&at[number].node);
}

/* Runs a cluster at a loss, and prints its rate; whether it is what it has to be, beside the rate without loss. */
static bool measure(unsigned in_a_hundred, unsigned target, uint32_t *without) {
  struct rate rate = {0, UINT32_MAX, 0};
  loss = in_a_hundred;
  for (uint64_t seed = 1; seed <= SEEDS; seed++) run(seed, &rate);
  if (loss == 0) *without = rate.calls;
  uint32_t vain = rate.positions > rate.calls ? rate.positions - rate.calls : 0;
  bool holds = rate.calls * 100ull >= *without * (uint64_t)target && vain * 20 <= rate.positions + 20 * SEEDS * TASKS &&
               rate.fewest * 10ull * TASKS * SEEDS >= rate.calls;
  printf(" %8u%s", rate.calls / (SEEDS * SECONDS), holds ? " " : "!");
  return holds;
}

int main(void) {
  static const unsigned losses[LOSSES] = {0, 1, 5, 20}, targets[LOSSES] = {100, 50, 20, 1};
  static const struct cluster clusters[] = {
      {"three of three", 3, {0}, 1, 1},
      {"two of three", 3, {0, 0, 0, 1}, 1, 1},
      {"three of three, callers at node 2", 3, {0}, 2, 2},
      {"three of three, one caller at node 2", 3, {0}, 1, 2},
      {"two of three, node 1 away", 3, {0, 1}, 2, 2},
      {"five of five", 5, {0}, 1, 1},
      {"three of five", 5, {0, 0, 0, 0, 1, 1}, 1, 1},
      {"three of five, node 1 away", 5, {0, 1, 0, 0, 0, 1}, 2, 2},
      {"seven of seven", 7, {0}, 1, 1},
      {"four of seven", 7, {0, 0, 0, 0, 0, 1, 1, 1}, 1, 1},
  };
  int wrong = 0;
  printf("calls a second at a loss of %18s %9s %9s %9s\n", "0 %", "1 %", "5 %", "20 %");
  for (size_t row = 0; row < sizeof clusters / sizeof *clusters; row++) {
    uint32_t without = 0;
    cluster = &clusters[row];
    printf("%-36s", cluster->name);
    for (int column = 0; column < LOSSES; column++) wrong += !measure(losses[column], targets[column], &without);
    printf("\n");
  }
  printf("%d do not hold: of the calls without loss at least 50 %% at 1 %%, 20 %% at 5 %%, 1 %% at 20 %%; of twenty positions at most "
         "one for no call; of the calls of each task at least a tenth of the mean\n", wrong);
  return wrong != 0;
}

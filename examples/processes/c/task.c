/* A task of reg.deck as a process: it calls `reg.swap` again and again, and prints each call and its reply.
 *
 *   task DECK NUMBER NODES CALLS PORT [TO [AFTER]]
 *
 * It gets at PORT + RP_TASK_PARTY + NUMBER. A task that starts again goes on after the call AFTER, of which it had the reply:
 * the number of the next call was printed before the call was sent, and may be under way. So its first call changes nothing,
 * and the reply to it is not used (docs/C.md, "A task that restarts"). */
#include "deck_objects.h" /* by `rp_console bind --c` of reg.deck */
#include "udp.h"

enum { RETRY_MS = 40 };

static struct link net;
static rp_task stub = RP_CLOSED;
static uint8_t nodes, node = 1;

static uint64_t nanoseconds(void) {
  struct timespec now;
  clock_gettime(CLOCK_MONOTONIC, &now);
  return (uint64_t)now.tv_sec * 1000000000 + (uint64_t)now.tv_nsec;
}

/* One call of the replicated object. It returns once the reply is there, and asks again meanwhile, also another node. */
static rp_call_reply call(void *context, uint8_t object, uint8_t operation, uint8_t index, int64_t argument) {
  static uint8_t datagram[MOST_DATAGRAM];
  rp_call_packet packet;
  rp_call_reply reply;
  (void)context;
  if (rp_task_operation(&stub, node, object, operation, index, argument, &packet) != RP_DONE) stop("a call is refused");
  for (;;) {
    send_packet(&net, packet.bytes, packet.count);
    uint64_t due = milliseconds() + RETRY_MS, now;
    while ((now = milliseconds()) < due) {
      size_t count = receive_packet(&net, datagram, (int)(due - now));
      if (count > 0 && rp_task_take(&stub, datagram + MARK, count, &reply) == RP_DONE && reply.kind != 0) return reply;
    }
    node = (uint8_t)(node % nodes + 1);
    if (rp_task_again(&stub, node, &packet) != RP_DONE) stop("a call is refused");
  }
}

static const rp_caller caller = {call, NULL};

int main(int count, char **words) {
  static uint8_t deck[MOST_DECK];
  uint8_t header[RP_HEADER_BYTES];
  if (count < 6) {
    fprintf(stderr, "task DECK NUMBER NODES CALLS PORT [TO [AFTER]]\n");
    return 2;
  }
  size_t length = read_deck(words[1], deck);
  int number = atoi(words[2]), calls = atoi(words[4]), after = count > 7 ? atoi(words[7]) : 0;
  nodes = (uint8_t)atoi(words[3]);
  if (rp_device_header(deck, length, 1, header, sizeof header) != RP_DONE) stop("a bad deck");
  net = link_of(header, RP_TASK_PARTY + number, atoi(words[5]), atoi(words[count > 6 ? 6 : 5]));
  if (rp_task_open_after((uint8_t)number, (uint32_t)after, &stub) != RP_DONE) stop("no such task");
  setvbuf(stdout, NULL, _IOLBF, 0);
  if (count > 7) { /* it starts again: the next number may be that of a call under way */
    (void)reg__calls(&caller, 0, NULL);
    printf("%d again %d\n", number, ++after);
  }
  for (int made = after + 1; made <= calls; made++) {
    int64_t argument = (int64_t)number * 1000000000 + made;
    printf("%d call %d %llu\n", number, made, (unsigned long long)nanoseconds());
    int64_t reply;
    if (reg__swap(&caller, argument, &reply) != RP_REPLY_VALUE) stop("the call raised an exception");
    printf("%d reply %d %lld %llu\n", number, made, (long long)reply, (unsigned long long)nanoseconds());
  }
  return 0;
}

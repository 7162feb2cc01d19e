/* A node of a deck as a process: a file is its device, and packets are datagrams.
 *
 *   node DECK NUMBER NODES DEVICE init
 *   node DECK NUMBER NODES DEVICE PORT [TO [ranges]]
 *
 * The first makes a fresh device, once in the life of an installation, and nothing else ever does: a node that is started
 * without its device ends. A fresh device in place of one that was lost has forgotten what its node said, and the nodes then
 * may decide a second action at a position.
 * It gets at PORT + NUMBER and sends to TO + the receiver's party (PORT if TO is left out). With `ranges` it asks for promises
 * ahead (`ask_ahead`). What the theorem asks of a caller (docs/C.md) is kept at the lines that are marked by RULE. */
#include <fcntl.h>
#include <sys/file.h>
#include <sys/stat.h>

#include "udp.h"

enum { BATCH = 64, WAIT_MS = 2, MOST_PACKETS = 128, WINDOW = 64, AHEAD = 16 };

/* Packets one after another, and where each ends. */
struct packets {
  uint8_t bytes[2 * BATCH * RP_STEP_BYTES];
  size_t ends[2 * BATCH * MOST_PACKETS];
  size_t count;
};

static rp_node node = RP_CLOSED;
static rp_patience patience = RP_NO_WAIT;
static struct link net;
static uint8_t me, nodes;
static int device;

/* What the steps of this turn gave: bytes for the device, and packets that wait for its sync. */
static uint8_t records[2 * BATCH * RP_STEP_BYTES];
static size_t recorded;
static struct packets waiting, own;

static size_t end_of(const struct packets *all, size_t place) { return place == 0 ? 0 : all->ends[place - 1]; }

static void add(struct packets *all, const uint8_t *packet, size_t count) {
  size_t start = end_of(all, all->count);
  memcpy(all->bytes + start, packet, count);
  all->ends[all->count++] = start + count;
}

/* Where a step's answer goes. */
static uint8_t answer[RP_STEP_BYTES];
static size_t ends[MOST_PACKETS];
static rp_room room = {answer, sizeof answer, ends, MOST_PACKETS, {0, 0, 0, 0}};

/* Keeps what a step gave. What is refused changed nothing: a packet counts as lost then, and a lead is tried again. */
static void keep(uint8_t status) {
  if (status != RP_DONE) return;
  memcpy(records + recorded, answer, room.step.stored);
  recorded += room.step.stored;
  for (size_t place = 0, start = 0; place < room.step.packets; start = ends[place++]) {
    add(&waiting, answer + room.step.stored + start, ends[place] - start);
  }
}

static void store_records(void) {
  for (size_t done = 0; done < recorded;) {
    ssize_t count = write(device, records + done, recorded - done);
    if (count < 0) stop("write"); /* no packet of these steps is sent */
    done += (size_t)count;
  }
  if (recorded > 0 && fdatasync(device) != 0) stop("fdatasync");
  recorded = 0;
}

/* Sends what the steps gave; a packet to this node itself is received in the next turn. */
static void hand_on_packets(void) {
  for (size_t place = 0; place < waiting.count; place++) {
    const uint8_t *packet = waiting.bytes + end_of(&waiting, place);
    size_t count = waiting.ends[place] - end_of(&waiting, place);
    if (packet[3] == me) {
      add(&own, packet, count);
    } else {
      send_packet(&net, packet, count);
    }
  }
  waiting.count = 0;
}

/* Receives what came: at first a wait, unless there are packets of its own. RULE 2: the only bytes that the node is given
 * as packets are those of datagrams with this installation's mark, and its own. */
static void receive_packets(void) {
  static uint8_t datagram[MOST_DATAGRAM];
  int wait = own.count > 0 ? 0 : WAIT_MS;
  for (size_t place = 0; place < own.count; place++) {
    keep(rp_node_take(&node, own.bytes + end_of(&own, place), own.ends[place] - end_of(&own, place), &room));
  }
  own.count = 0;
  for (int got = 0; got < BATCH; got++, wait = 0) {
    size_t count = receive_packet(&net, datagram, wait);
    if (count == 0) return;
    keep(rp_node_take(&node, datagram + MARK, count, &room));
  }
}

/* Asks another node, each in turn, for the positions that this one misses. */
static void ask_another(void) {
  static uint8_t asked;
  do asked = (uint8_t)(asked % nodes + 1);
  while (asked == me);
  keep(rp_node_ask(&node, asked, &room));
}

static bool with_ranges;
static uint32_t led, asked_to; /* where this node led last, and where the range that it asked for last ends */

/* The last of the first `most` positions that are not applied. */
static uint32_t last_of(uint32_t most) {
  uint32_t applied = 0, left = 0;
  (void)rp_node_applied(&node, &applied);
  (void)rp_node_left(&node, &left);
  return applied + (left < most ? left : most);
}

/* With `ranges`: asks for promises at all positions that follow in the window, in one step, once few are left of those that
 * it asked for. A lead at a promised position asks for votes alone. It is a step as any other, so what it owes is the three
 * rules. A range that is lost or refused costs its promises: the leads at its positions ask for them again. */
static void ask_ahead(void) {
  uint32_t first = (asked_to > led ? asked_to : led) + 1, last = last_of(WINDOW);
  if (!with_ranges || asked_to >= led + AHEAD || first > last) return;
  keep(rp_node_lead_range(&node, (uint16_t)first, (uint8_t)(last - first + 1), &room));
  asked_to = last;
}

static void lead(uint32_t position) {
  keep(rp_node_lead_at(&node, (uint16_t)position, &room));
  led = position;
  ask_ahead();
}

/* Does what the advice says, until it says nothing; a turn of the node's patience is a millisecond. */
static void do_what_is_advised(void) {
  static uint64_t before;
  uint64_t now = milliseconds(), passed = before == 0 ? 0 : now - before;
  rp_advice advice = {RP_ADVICE_NOTHING, 0};
  before = now;
  do {
    if (rp_node_advise(&node, &patience, passed, &advice) != RP_DONE) return;
    if (advice.kind == RP_ADVICE_LEAD) lead(advice.position);
    if (advice.kind == RP_ADVICE_ASK) ask_another();
    passed = 0;
  } while (advice.kind != RP_ADVICE_NOTHING);
}

/* Once the log has ended: the deck with which the station goes on over fresh devices (docs/C.md, "The end of the log"), in
 * the file DEVICE.deck, which is there whole or not at all. The node stays, since others may still ask it. */
static void put_next_deck(const uint8_t *deck, size_t count, const char *name) {
  static uint8_t next[MOST_DECK];
  static bool is_put;
  char part[4096], whole[4096];
  uint32_t left = 0;
  size_t used = 0;
  if (is_put || rp_node_left(&node, &left) != RP_DONE || left > 0) return;
  is_put = true;
  uint8_t result = rp_next_deck(&node, deck, count, next, sizeof next, &used);
  if (result != RP_DONE) {
    fprintf(stderr, "node %d: no next deck: %d\n", me, result);
    return;
  }
  snprintf(part, sizeof part, "%s.part", name);
  snprintf(whole, sizeof whole, "%s.deck", name);
  int file = open(part, O_WRONLY | O_CREAT | O_TRUNC | O_CLOEXEC, 0644);
  if (file < 0 || write(file, next, used) != (ssize_t)used || fdatasync(file) != 0 || close(file) != 0) stop(part);
  if (rename(part, whole) != 0) stop(whole);
}

/* What is in a folder is there after a stop only once the folder is synced. */
static void sync_folder_of(const char *name) {
  const char *end = strrchr(name, '/');
  char folder[4096] = ".";
  if (end != NULL) snprintf(folder, sizeof folder, "%.*s", end == name ? 1 : (int)(end - name), name);
  int file = open(folder, O_RDONLY | O_CLOEXEC);
  if (file < 0 || fsync(file) != 0 || close(file) != 0) stop(folder);
}

/* Makes the device of a node that never ran: a file with its header, which is not there yet. */
static int make_device(const uint8_t *header, const char *name) {
  int file = open(name, O_WRONLY | O_CREAT | O_EXCL | O_CLOEXEC, 0644);
  if (file < 0 || write(file, header, RP_HEADER_BYTES) != RP_HEADER_BYTES || fdatasync(file) != 0 || close(file) != 0) {
    stop(name);
  }
  sync_folder_of(name);
  return 0;
}

/* Opens the node over its device. */
static void open_node(const uint8_t *deck, size_t count, const char *name) {
  static uint8_t held[1 << 24];
  struct stat status;
  rp_found found;
  device = open(name, O_RDWR | O_CLOEXEC);
  if (device < 0 || flock(device, LOCK_EX) != 0 || fstat(device, &status) != 0) stop(name); /* RULE 3: one handle */
  if (pread(device, held, sizeof held, 0) != status.st_size) stop(name);
  uint8_t result = rp_device_open(deck, count, me, held, (size_t)status.st_size, &node, &found); /* RULE 3: its own device */
  if (result != RP_DONE || found.tail == RP_TAIL_DAMAGED) {
    fprintf(stderr, "node %d: its device is refused: %d, %d\n", me, result, found.tail);
    exit(1);
  }
  off_t kept = RP_HEADER_BYTES + (off_t)found.kept;
  if (ftruncate(device, kept) != 0 || lseek(device, kept, SEEK_SET) != kept || fdatasync(device) != 0) stop(name); /* RULE 3 */
}

int main(int count, char **words) {
  static uint8_t deck[MOST_DECK];
  uint8_t header[RP_HEADER_BYTES];
  if (count < 6) {
    fprintf(stderr, "node DECK NUMBER NODES DEVICE init, or node DECK NUMBER NODES DEVICE PORT [TO [ranges]]\n");
    return 2;
  }
  size_t length = read_deck(words[1], deck);
  me = (uint8_t)atoi(words[2]);
  nodes = (uint8_t)atoi(words[3]);
  with_ranges = count > 7 && strcmp(words[7], "ranges") == 0;
  if (rp_device_header(deck, length, me, header, sizeof header) != RP_DONE) stop("the deck has no such node");
  if (strcmp(words[5], "init") == 0) return make_device(header, words[4]);
  open_node(deck, length, words[4]);
  net = link_of(header, me, atoi(words[5]), atoi(words[count > 6 ? 6 : 5]));
  for (;;) {
    receive_packets();
    do_what_is_advised();
    store_records();   /* RULE 1: what the steps gave is synced .. */
    hand_on_packets(); /* .. before a packet of theirs leaves */
    put_next_deck(deck, length, words[4]);
  }
}

/* Devices with a header, and what is found on them: another node's or deck's device, a torn tail, and a damaged
 * one. */
#include <stdio.h>
#include <string.h>

#include "rp.h"

enum { MOST_BYTES = 4096 };

static const char deck[] = "nodes 3\ntask writer 5\nobject tank 9\nint level 0 100 0\n"
                           "procedure fill\nset level add level arg\nout level\nend\nscript\n";
static const char other_deck[] = "nodes 3\ntask writer 5\nobject tank 9\nint level 0 99 0\n"
                                 "procedure fill\nset level add level arg\nout level\nend\nscript\n";
/* The same declarations, of another installation. */
static const char named_deck[] = "# installation 8f0e3c5a9d4b71266a1f2be07c94d583\nnodes 3\ntask writer 5\nobject tank 9\n"
                                 "int level 0 100 0\nprocedure fill\nset level add level arg\nout level\nend\nscript\n";
/* The same declarations, with a script. */
static const char scripted_deck[] = "nodes 3\ntask writer 5\nobject tank 9\nint level 0 100 0\n"
                                    "procedure fill\nset level add level arg\nout level\nend\nscript\nlead 1\n";
/* The same, with blanks before the script. */
static const char blanks_deck[] = "nodes 3\ntask writer 5\nobject tank 9\nint level 0 100 0\n"
                                  "procedure fill\nset level add level arg\nout level\nend\n \t script\nlead 1\n";
static uint8_t device[MOST_BYTES];
static size_t length;
static uint8_t answer[RP_STEP_BYTES];

/* Opens node `number` of a deck over the first bytes of the device, and closes it. */
static void open(const char *what, const char *text, uint8_t number, size_t held) {
  rp_node node = RP_CLOSED;
  rp_found found = {7, 7, 7, 7, 7};
  uint8_t status = rp_device_open((const uint8_t *)text, strlen(text), number, device, held, &node, &found);
  printf("%s: status %d, records %zu, kept %zu, tail %d\n", what, status, found.records, found.kept, found.tail);
  rp_node_close(&node);
}

static void print_header(void) {
  for (size_t at = 0; at < RP_HEADER_BYTES; at++) {
    printf("%02x", device[at]);
  }
  printf("\n");
}

int main(void) {
  const uint8_t *text = (const uint8_t *)deck;
  printf("a buffer of 39 bytes: status %d\n", rp_device_header(text, strlen(deck), 2, device, RP_HEADER_BYTES - 1));
  printf("node 4: status %d\n", rp_device_header(text, strlen(deck), 4, device, sizeof device));
  printf("node 2: status %d\n", rp_device_header(text, strlen(deck), 2, device, sizeof device));
  print_header();
  length = RP_HEADER_BYTES;
  open("a fresh device", deck, 2, length);

  /* two records: each lead starts a ballot */
  rp_node node = RP_CLOSED;
  rp_found found;
  rp_device_open(text, strlen(deck), 2, device, length, &node, &found);
  const uint8_t lead[1] = {RP_NODE_LEAD};
  for (int times = 0; times < 2; times++) {
    rp_lengths lengths = {0, 0};
    rp_node_call(&node, lead, 1, answer, sizeof answer, &lengths);
    memcpy(device + length, answer, lengths.stored);
    length += lengths.stored;
  }
  rp_node_close(&node);
  open("its own device", deck, 2, length);
  open("another node's", deck, 1, length);
  open("another deck's", other_deck, 2, length);
  open("another installation's", named_deck, 2, length);
  open("with another script", scripted_deck, 2, length);
  open("with blanks before the script", blanks_deck, 2, length);
  open("no device at all", deck, 2, 0);
  open("a header that is cut off", deck, 2, RP_HEADER_BYTES - 1);
  rp_node_open(text, strlen(deck), 2, device, length, &node, &found);
  printf("by rp_node_open, its header is no record: records %zu, kept %zu, tail %d\n", found.records, found.kept,
         found.tail);
  rp_node_close(&node);

  for (size_t cut = 1; cut < 10; cut++) {
    printf("%zu bytes are cut: ", cut);
    open("torn", deck, 2, length - cut);
  }
  uint8_t was = device[RP_HEADER_BYTES + 1];
  device[RP_HEADER_BYTES + 1] = 99;
  open("the kind of the first record is changed", deck, 2, length);
  device[RP_HEADER_BYTES + 1] = was;
  device[RP_HEADER_BYTES + 9] ^= 64;
  open("its ballot is changed to another", deck, 2, length);
  return 0;
}

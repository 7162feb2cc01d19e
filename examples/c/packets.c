/* Finds a packet at the front of a longer text, checks it, and says why a damaged one is none. */
#include <stdio.h>

#include "rp.h"

static const char *const reasons[] = {"", "too short", "too long", "unknown version", "unknown kind", "wrong field"};

static void check(const char *name, const uint8_t *bytes, size_t count) {
  uint8_t reason = 0;
  uint8_t status = rp_packet_check(bytes, count, &reason);
  printf("%s: %s\n", name, status == RP_DONE ? "a packet" : reasons[reason]);
}

int main(void) {
  /* Node 1 asks node 2 for a promise at position 1 in ballot 9, and four bytes of something else. */
  uint8_t text[18] = {2, 2, 1, 2, 0, 1, 0, 0, 0, 0, 0, 0, 0, 9, 1, 2, 3, 4};
  size_t length = 0;
  uint8_t status = rp_packet_length(text, sizeof text, &length);
  printf("status %d, length %zu\n", status, length);
  check("the packet", text, length);
  check("all but its last byte", text, length - 1);
  check("with a byte more", text, length + 1);
  text[0] = 3;
  check("of version 3", text, length);
  text[0] = 2;
  text[1] = 11;
  check("of kind 11", text, length);
  text[1] = 2;
  text[13] = 8;
  check("in a ballot that no node owns", text, length);
  return 0;
}

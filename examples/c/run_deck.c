/* Runs the deck on standard input by the library, and prints its answer: what `rp_console script` prints.
 *
 * The first call has no room for an answer and returns the length that it needs; the second has. A bad
 * deck's line goes to standard error. The status is the library's. */
#include <stdio.h>
#include <stdlib.h>
#include <string.h>

#include "rp.h"

enum { MOST_BYTES = 1048576 };

static uint8_t deck[MOST_BYTES + 1];

int main(int count, char **words) {
  bool traced = count > 1 && strcmp(words[1], "--trace") == 0;
  size_t length = fread(deck, 1, sizeof deck, stdin);
  uint8_t nothing = 0;
  size_t used = 0;
  uint8_t status = rp_run_deck(deck, length, traced, &nothing, 0, &used);
  if (status == RP_SHORT_ANSWER) {
    uint8_t *answer = malloc(used);
    if (answer == NULL) {
      return RP_OUT_OF_MEMORY;
    }
    status = rp_run_deck(deck, length, traced, answer, used, &used);
    fwrite(answer, 1, used, status == RP_DONE ? stdout : stderr);
    free(answer);
  }
  return status;
}

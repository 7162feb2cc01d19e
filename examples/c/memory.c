/* Nodes and tasks that are opened and closed, and opened over one another, 100,000 times: what they took is given
 * back. tools/c_library runs it under a limit of its memory. */
#include <stdio.h>
#include <string.h>

#include "rp.h"

enum { TIMES = 100000 };

static const char deck[] = "nodes 3\ntask writer 5\nobject tank 9\nint level 0 100 0\n"
                           "procedure fill\nset level add level arg\nout level\nend\nscript\n";
static uint8_t answer[RP_STEP_BYTES];

int main(void) {
  const uint8_t *text = (const uint8_t *)deck;
  const uint8_t lead[1] = {RP_NODE_LEAD};
  rp_node node = RP_CLOSED;
  rp_task task = RP_CLOSED;
  rp_found found;
  rp_lengths lengths;
  size_t failed = 0;
  for (int at = 0; at < TIMES; at++) {
    /* every other time the handles are open, and what they keep is closed by this */
    failed += rp_node_open(text, sizeof deck - 1, 1, NULL, 0, &node, &found) != RP_DONE;
    failed += rp_task_open(1, &task) != RP_DONE;
    failed += rp_node_call(&node, lead, 1, answer, sizeof answer, &lengths) != RP_DONE;
    failed += rp_node_open(text, sizeof deck / 2, 1, NULL, 0, &node, &found) != RP_BAD_DECK;
    if (at % 2 == 0) {
      rp_node_close(&node);
      rp_task_close(&task);
    }
  }
  rp_node_close(&node);
  rp_task_close(&task);
  printf("opened %d times, failed %zu\n", TIMES, failed);
  return failed != 0;
}

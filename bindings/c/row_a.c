/* Runs row A of document 01 to the end and prints the grid: 8 by 8 cells in tiles of 2 by 2 on two processors.
 * Processors take turns in rising order; each message in flight is delivered when no turn can be taken. */
#include <inttypes.h>
#include <stdio.h>
#include <stdlib.h>
#include <string.h>

#include "rolwyddac.h"

enum { SIDE = 8, CELLS = SIDE * SIDE, PROCESSORS = 2 };

enum { DIMENSIONS = 2, DISTANCES = 3 };
static const uint16_t lengths[DIMENSIONS] = {SIDE, SIDE}, tiling[DIMENSIONS] = {2, 2};
static const uint16_t counts[DIMENSIONS] = {PROCESSORS, 0};
static const uint16_t components[4 * DISTANCES] = {1, 0, 0, 0, 0, 1, 0, 0, 1, 1, 0, 0}, weights[DISTANCES] = {1, 1, 1};
static uint8_t recipe[16 * (DIMENSIONS + DISTANCES + 1)];

static uint32_t source[CELLS], swept[CELLS], grid[CELLS], memories[PROCESSORS * CELLS];
static rolwyddac_progress progress[PROCESSORS];
static uint32_t *buffer;
static uint8_t *status;
static size_t words, messages;

static void must_be_done(const char *call, uint32_t number) {
  if (number == ROLWYDDAC_DONE) return;
  fprintf(stderr, "%s: refused %" PRIu32 "\n", call, number);
  exit(1);
}

/* each processor takes turns until it is refused; returns how many turns were taken */
static size_t take_turns(void) {
  size_t taken = 0;
  for (uint32_t p = 0; p < PROCESSORS; p++)
    while (rolwyddac_turn(recipe, sizeof recipe, ROLWYDDAC_DIRECT, source, CELLS, memories, PROCESSORS * CELLS, buffer,
                          words, progress, PROCESSORS, status, messages, p) == ROLWYDDAC_DONE)
      taken++;
  return taken;
}

static size_t deliver_all(void) {
  size_t delivered = 0;
  for (uint32_t m = 0; m < messages; m++) {
    if (status[m] != 1) continue;
    must_be_done("deliver", rolwyddac_deliver(recipe, sizeof recipe, ROLWYDDAC_DIRECT, source, CELLS, memories,
                                              PROCESSORS * CELLS, buffer, words, progress, PROCESSORS, status, messages,
                                              m));
    delivered++;
  }
  return delivered;
}

/* row A has no bounds; the pointers are not null */
static const uint8_t no_bytes[1];
static const int8_t no_slopes[1];
static const int16_t no_offsets[1];

int main(void) {
  must_be_done("write", rolwyddac_write(lengths, DIMENSIONS, tiling, DIMENSIONS, counts, DIMENSIONS, components,
                                        4 * DISTANCES, weights, DISTANCES, no_bytes, 0, no_bytes, 0, no_bytes, 0, no_slopes, 0,
                                        no_offsets, 0, 0, 0, recipe, sizeof recipe));
  const rolwyddac_figures plan = rolwyddac_summary(recipe, sizeof recipe, ROLWYDDAC_DIRECT);
  must_be_done("summary", plan.number);
  words = plan.words;
  messages = plan.messages;
  /* one element more than needed, for a pointer that is not null where a plan has no message */
  buffer = calloc(words + 1, sizeof *buffer);
  status = calloc(messages + 1, sizeof *status);
  if (!buffer || !status) return 1;
  for (size_t c = 0; c < CELLS; c++) source[c] = 1;

  must_be_done("fresh", rolwyddac_fresh(recipe, sizeof recipe, ROLWYDDAC_DIRECT, source, CELLS, memories,
                                        PROCESSORS * CELLS, buffer, words, progress, PROCESSORS, status, messages));
  size_t steps = 0;
  for (size_t more = 1; more > 0;) {
    more = take_turns() + deliver_all();
    steps += more;
  }
  must_be_done("collect", rolwyddac_collect(recipe, sizeof recipe, ROLWYDDAC_DIRECT, source, CELLS, memories,
                                            PROCESSORS * CELLS, buffer, words, progress, PROCESSORS, status, messages,
                                            grid, CELLS));
  for (size_t c = 0; c < CELLS; c++)
    printf("%" PRIu32 "%c", grid[c], c % SIDE == SIDE - 1 ? '\n' : ' ');

  must_be_done("sweep", rolwyddac_sweep(recipe, sizeof recipe, source, CELLS, swept, CELLS));
  printf("steps %zu of %" PRIu32 ", %s the sweep\n", steps, plan.steps,
         memcmp(grid, swept, sizeof grid) == 0 ? "equal to" : "NOT equal to");
  free(buffer);
  free(status);
  return steps == plan.steps && memcmp(grid, swept, sizeof grid) == 0 ? 0 : 1;
}

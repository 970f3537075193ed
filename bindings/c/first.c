/* A first program: 8 by 8 cells in tiles of 2 by 2 on two processors, run to the end. */
#include <inttypes.h>
#include <stdio.h>

#include "rolwyddac_run.h"

enum { SIDE = 8, CELLS = SIDE * SIDE };

int main(void) {
  /* each cell adds to its source the cells above it, left of it, and above to the left */
  const rolwyddac_fields fields = {
      .dimensions = 2, .lengths = {SIDE, SIDE}, .tiling = {2, 2}, .counts = {2, 0},
      .distances = 3, .components = {1, 0, 0, 0, 0, 1, 0, 0, 1, 1, 0, 0}, .weights = {1, 1, 1}};
  uint8_t recipe[ROLWYDDAC_MOST_RECIPE_BYTES];
  uint32_t source[CELLS], grid[CELLS];
  size_t size;
  rolwyddac_run *run = NULL;
  for (int c = 0; c < CELLS; c++) source[c] = 1;

  uint32_t number = rolwyddac_encode(&fields, recipe, &size);
  if (number == 0) number = rolwyddac_run_make(recipe, size, ROLWYDDAC_DIRECT, source, CELLS, &run);
  if (number == 0) number = rolwyddac_run_finish(run);
  if (number == 0) number = rolwyddac_run_collect(run, grid, CELLS);
  rolwyddac_run_free(run);

  if (number != 0) fprintf(stderr, "refused %" PRIu32 ": %s\n", number, rolwyddac_text(number));
  for (int c = 0; c < CELLS && number == 0; c++)
    printf("%" PRIu32 "%c", grid[c], c % SIDE == SIDE - 1 ? '\n' : ' ');
  return number != 0;
}

#include "grid.h"

#include <inttypes.h>
#include <stdlib.h>

#include "file.h"
#include "tell.h"

static enum status compare(const uint32_t *grid, const uint32_t *swept, uint32_t cells) {
  for (uint32_t c = 0; c < cells; c++)
    if (grid[c] != swept[c])
      return tell(STATUS_DIFFERS, "the grid differs from the sweep: cell %" PRIu32 " is %" PRIu32 ", not %" PRIu32, c, grid[c], swept[c]);
  return STATUS_DONE;
}

enum status grid_verify(const struct plan *plan, const uint32_t *source, const uint32_t *grid) {
  uint32_t *swept = calloc(plan->sizes.grid, sizeof *swept);
  if (swept == NULL) return tell_no_memory();
  const uint32_t number = rolwyddac_sweep(plan->recipe, plan->recipe_length, source, plan->sizes.source, swept, plan->sizes.grid);
  const enum status status = number == ROLWYDDAC_DONE ? compare(grid, swept, plan_cells(plan)) : tell_refusal("sweep", number);
  free(swept);
  return status;
}

enum status grid_write(const struct plan *plan, const uint32_t *grid, const char *name) {
  const size_t bytes = 4 * plan->sizes.grid;
  uint8_t *out = malloc(bytes);
  if (out == NULL) return tell_no_memory();
  for (size_t i = 0; i < bytes; i++) out[i] = (uint8_t)(grid[i / 4] >> 8 * (i % 4) & 255);
  const enum status status = file_write(name, out, bytes);
  free(out);
  return status;
}

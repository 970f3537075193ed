#define _POSIX_C_SOURCE 200809L
#include "harvest.h"

#include <inttypes.h>
#include <stdbool.h>
#include <stdlib.h>

#include "clock.h"
#include "file.h"
#include "grid.h"
#include "tell.h"
#include "work.h"

/* how long the run took; beside it one processor's sweep, and the same with the extra work of all tiles */
static enum status print_times(const struct options *options, const struct plan *plan, const uint32_t *source, double run, bool on_error) {
  uint32_t *swept = calloc(plan->sizes.grid, sizeof *swept);
  if (swept == NULL) return tell_no_memory();
  const rolwyddac_figures totals = rolwyddac_summary(plan->recipe, plan->recipe_length, plan->route);
  uint32_t number = totals.number;
  const double start = now();
  if (number == ROLWYDDAC_DONE) number = rolwyddac_sweep(plan->recipe, plan->recipe_length, source, plan->sizes.source, swept, plan->sizes.grid);
  const double sweep = now() - start;
  free(swept);
  if (number != ROLWYDDAC_DONE) return tell_refusal("sweep", number);
  work_on(totals.tiles * work_cells(plan), options->work);
  const double heavy = now() - start;
  return say(on_error, "run %.1f us, sweep %.1f us, sweep with the extra work %.1f us", 1e6 * run, 1e6 * sweep, 1e6 * heavy);
}

static enum status print_done(const struct options *options, const struct plan *plan, const char *counts, bool on_error) {
  const char *verified = options->verify ? ", equal to the sweep" : "";
  const char *in = options->grid == NULL ? "" : on_error ? ", grid on standard output" : ", grid in ";
  return say(on_error, "boards %" PRIu32 " messages %" PRIu32 " words %zu: done%s%s%s%s", plan_boards(plan), plan_messages(plan), plan->sizes.buffer,
             verified, in, options->grid == NULL || on_error ? "" : options->grid, counts);
}

enum status harvest(const struct options *options, const struct plan *plan, const uint32_t *source, const uint32_t *grid, double seconds, const char *counts) {
  enum status status = STATUS_DONE;
  /* where the grid goes to standard output nothing else does */
  const bool on_error = options->grid != NULL && file_is_output(options->grid);
  tell_as_run();
  if (options->verify) status = grid_verify(plan, source, grid);
  if (status == STATUS_DONE && options->times) status = print_times(options, plan, source, seconds, on_error);
  if (status == STATUS_DONE && options->grid != NULL) status = grid_write(plan, grid, options->grid);
  if (status == STATUS_DONE) status = print_done(options, plan, counts, on_error);
  return status;
}

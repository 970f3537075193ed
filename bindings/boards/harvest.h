/* The end of a run that ended well: the grid is held to the sweep and written, and the line is printed. */
#ifndef BOARDS_HARVEST_H
#define BOARDS_HARVEST_H

#include <stdint.h>

#include "options.h"
#include "plan.h"
#include "status.h"

/* `seconds` is how long the run took; `counts` is what stands behind the line. */
enum status harvest(const struct options *options, const struct plan *plan, const uint32_t *source, const uint32_t *grid, double seconds, const char *counts);

#endif

/* The grid: held to the sweep and written by the process that reads the files. */
#ifndef BOARDS_GRID_H
#define BOARDS_GRID_H

#include <stdint.h>

#include "plan.h"
#include "status.h"

/* Is the grid what one processor's sweep of the source gives? The first cell that is not is told. */
enum status grid_verify(const struct plan *plan, const uint32_t *source, const uint32_t *grid);

/* Writes the grid as file_write does, words of four bytes, low byte first. */
enum status grid_write(const struct plan *plan, const uint32_t *grid, const char *name);

#endif

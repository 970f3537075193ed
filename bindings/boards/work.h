/* Extra work, to measure with: rounds of arithmetic whose outcome nothing reads. It stands for a body heavier than the engine's and
 * is done beside the engine's own calculating, on no word of it. */
#ifndef BOARDS_WORK_H
#define BOARDS_WORK_H

#include <stdint.h>

#include "plan.h"

/* The cells of a whole tile. A tile at the end of a dimension that has fewer is worked for as a whole one. */
uint32_t work_cells(const struct plan *plan);

/* So many rounds for each of so many cells, one round waiting for the other. */
void work_on(uint32_t cells, uint32_t rounds);

#endif

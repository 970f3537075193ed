/* A board's part: its record and the words of its own cells. What all boards hand in is joined and collected (crates/restarts, `joins` and `part-right`). */
#ifndef BOARDS_PART_H
#define BOARDS_PART_H

#include <stddef.h>
#include <stdint.h>

#include "areas.h"
#include "job.h"
#include "status.h"

/* The words of a board's part. */
size_t part_length(const struct job *job, uint32_t board);

/* Writes the part of a board that has finished. */
void part_write(const struct job *job, const struct areas *areas, uint32_t board, uint32_t *words);

/* Collects the grid from all boards' parts. */
enum status parts_collect(const struct job *job, const uint32_t *const *parts, uint32_t *grid);

#endif

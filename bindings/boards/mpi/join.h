/* Board 0 joins the boards' parts: into areas with a fresh start go each board's own part of its memories and its record. Collecting on
 * these areas gives the grid (crates/network, `joined-grid`). */
#ifndef BOARDS_MPI_JOIN_H
#define BOARDS_MPI_JOIN_H

#include <stddef.h>
#include <stdint.h>

#include "areas.h"
#include "status.h"

/* The words of a part as it is sent: one a cell, and the record's three. */
size_t join_length(const struct plan *plan);

/* Writes a board's part as it is sent. */
void join_write(const struct areas *areas, uint32_t board, uint32_t *words);

/* Puts the part of a board, as it was sent, into the joined areas. */
void join_put(struct areas *joined, uint32_t board, const uint32_t *words);

/* Puts the part of the board that joins, from its own areas. */
void join_own(struct areas *joined, const struct areas *own, uint32_t board);

#endif

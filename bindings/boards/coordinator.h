/* The coordinator: it hands out the jobs, hears how far the boards are, and collects their parts, each as it comes. Where the boards are on this machine it
 * starts them too, and again when they end. It may die itself, where others start the boards: with the same recipe, source and number it finds them again. */
#ifndef BOARDS_COORDINATOR_H
#define BOARDS_COORDINATOR_H

#include <stdbool.h>
#include <stdint.h>

#include "crew.h"
#include "job.h"
#include "net.h"
#include "status.h"

/* What a run comes to. */
struct outcome {
  double seconds; /* from its start until the grid was collected */
  uint32_t *grid; /* one word a cell, freed by the caller */
  struct counts counts;
  uint32_t restarts;
};

/* Runs the job. `crew` is null where others start the boards. Returns in each board that is started too, with its number in `board`, else COORDINATOR. */
enum status coordinate(const struct job *job, struct net *net, struct crew *crew, struct outcome *out, uint32_t *board, bool *again);

#endif

/* One board: it makes a fresh start, takes turns on its own areas, posts what it sent and takes in what arrives until it has no tiles left, hands in its
 * part, and stays to post again what others ask for until the coordinator ends the run. It keeps nothing: it may be ended at any time and started again. */
#ifndef BOARDS_BOARD_H
#define BOARDS_BOARD_H

#include <stdbool.h>
#include <stdint.h>

#include "job.h"
#include "net.h"
#include "status.h"

/* Is a board, until the run is over. `life` is made by chance; `again`: the board was there before, and others may have what it needs. */
enum status board_run(struct net *net, const struct job *job, uint32_t me, uint64_t life, bool again);

#endif

/* One board: it takes turns on its own areas, posts what it sent and takes in what arrives, until it has no tiles left; then its part
 * goes to board 0. */
#ifndef BOARDS_MPI_BOARD_H
#define BOARDS_MPI_BOARD_H

#include "areas.h"
#include "job.h"
#include "options.h"
#include "status.h"
#include "transport.h"

/* Runs the board that this process is, to the end of all boards. At board 0 `joined`, empty before, has all boards' parts then; the caller
 * frees it. Where the run ends early the other boards are told. */
enum status board_run(const struct options *options, const struct job *job, struct transport *transport, struct areas *joined);

#endif

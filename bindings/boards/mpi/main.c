/* boards_mpi: sweeps a recipe on boards that share no memory, one process a board, over MPI. MANUAL.md says how it is used and what it promises. */
#define _POSIX_C_SOURCE 200809L
#include <errno.h>
#include <stdbool.h>
#include <stddef.h>
#include <stdio.h>
#include <stdlib.h>
#include <string.h>

#include "board.h"
#include "clock.h"
#include "harvest.h"
#include "job.h"
#include "options.h"
#include "process.h"
#include "status.h"
#include "tell.h"
#include "transport.h"

/* What a run comes to: board 0 hands it in. */
struct outcome {
  double seconds; /* from the moment at which all boards were there until the grid was collected */
  uint32_t grid[ROLWYDDAC_MOST_CELLS];
};

/* the bytes of the outcome of a plan's run */
static size_t outcome_length(const struct plan *plan) { return offsetof(struct outcome, grid) + plan->sizes.grid * sizeof(uint32_t); }

static enum status collect(const struct areas *joined, uint32_t *grid) {
  const uint32_t number = areas_collect(joined, grid);
  return number == ROLWYDDAC_DONE ? STATUS_DONE : tell_refusal("collecting", number);
}

static enum status be_a_board(const struct options *options, const struct job *job, struct transport *transport, struct outcome *outcome) {
  const double start = now();
  struct areas joined = {0};
  tell_as(transport_me(transport));
  enum status status = board_run(options, job, transport, &joined);
  if (status == STATUS_DONE && transport_me(transport) == 0) {
    status = collect(&joined, outcome->grid);
    outcome->seconds = now() - start;
    if (status == STATUS_DONE) status = transport_hand_in(transport, outcome, outcome_length(&job->plan));
  }
  areas_free(&joined);
  return status;
}

static enum status run(const struct options *options, struct transport *transport) {
  struct job job;
  struct outcome *outcome = NULL;
  bool board = false;
  enum status status = job_read(&job, options, transport);
  if (status == STATUS_DONE && (outcome = malloc(sizeof *outcome)) == NULL) status = tell_no_memory();
  if (status == STATUS_DONE) status = transport_begin(transport, plan_boards(&job.plan), options->timeout, &board);
  if (status == STATUS_DONE && board) status = be_a_board(options, &job, transport, outcome);
  if (status == STATUS_DONE) status = transport_end(transport, options->timeout, outcome, outcome_length(&job.plan));
  if (status == STATUS_DONE && transport_reads(transport)) status = harvest(options, &job.plan, job.source, outcome->grid, outcome->seconds, "");
  free(outcome);
  job_free(&job);
  return status;
}

int main(int argc, char **argv) {
  process_prepare();
  struct transport *transport = transport_open(&argc, &argv);
  if (transport == NULL) return STATUS_MACHINE;
  if (!transport_reads(transport)) tell_nothing();
  struct options options;
  bool over = false;
  enum status status = options_read(argc, argv, transport_reads(transport), &options, &over);
  if (status == STATUS_DONE && !over && (options.hosts != NULL || options.key != NULL || options.boarded))
    status = tell(STATUS_USAGE, "--hosts, --key and --board are not for MPI: mpirun says where the boards are");
  if (status == STATUS_DONE && !over) status = run(&options, transport);
  /* --help and --version */
  if (fflush(stdout) != 0 && status == STATUS_DONE) status = tell(STATUS_FILE, "can't write to standard output: %s", strerror(errno));
  transport_close(transport, status);
  return (int)status;
}

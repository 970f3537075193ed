/* boards: sweeps a recipe on boards that share no memory and may die at any time, one process a board, over a network that may lose any packet. MANUAL.md
 * says how it is used and what it promises. */
#define _POSIX_C_SOURCE 200809L
#include <errno.h>
#include <inttypes.h>
#include <math.h>
#include <stdbool.h>
#include <stdio.h>
#include <stdlib.h>
#include <string.h>
#include <unistd.h>

#include "board.h"
#include "coordinator.h"
#include "harvest.h"
#include "join.h"
#include "options.h"
#include "process.h"
#include "tell.h"

/* The socket of the process that this is, where a hosts file says where all are. */
static enum status take_place(const struct options *options, struct hosts *hosts, uint32_t node, int *out) {
  const enum status status = hosts_read(hosts, options->hosts);
  if (status != STATUS_DONE) return status;
  if (!hosts_has(hosts, node)) return tell(STATUS_USAGE, "%s has no board %" PRIu32, options->hosts, node);
  if (!hosts->loopback && options->key == NULL) return tell(STATUS_USAGE, "%s has addresses beyond this machine: --key is asked for", options->hosts);
  return net_open(&hosts->node[node], out);
}

/* ---- a board of a hosts file */

static enum status be_a_board(const struct options *options, const struct key *key) {
  static struct hosts hosts;
  struct job job = {0};
  struct net net = {.socket = -1, .hosts = &hosts, .key = key};
  const uint64_t life = net_chance();
  bool again = false;
  enum status status = take_place(options, &hosts, options->board, &net.socket);
  if (status == STATUS_DONE) {
    process_before_end(NULL);
    tell_as(options->board);
    status = join(&net, options->board, life, options->limited ? options->timeout : HUGE_VAL, &job, &again);
  }
  if (status == STATUS_DONE && plan_boards(&job.plan) != hosts.boards) status = tell(STATUS_USAGE, "the run has another number of boards than the hosts file");
  if (status == STATUS_DONE) status = board_run(&net, &job, options->board, life, again);
  job_free(&job);
  if (net.socket >= 0) close(net.socket);
  return status;
}

/* ---- the coordinator */

static enum status open_all(const struct options *options, const struct job *job, struct hosts *hosts, struct crew *crew, int *socket) {
  const uint32_t boards = plan_boards(&job->plan);
  if (options->hosts == NULL) return crew_make(crew, hosts, boards, socket);
  const enum status status = take_place(options, hosts, COORDINATOR, socket);
  if (status == STATUS_DONE && hosts->boards != boards)
    return tell(STATUS_USAGE, "the recipe has %" PRIu32 " boards, %s has %" PRIu32, boards, options->hosts, hosts->boards);
  if (status == STATUS_DONE) process_before_end(NULL);
  return status;
}

/* what stands behind the line of a run that ended well */
static void write_counts(char *out, size_t room, const struct outcome *outcome) {
  const uint32_t *c = outcome->counts.of;
  const uint32_t dropped = c[COUNT_DAMAGED] + c[COUNT_FORGED] + c[COUNT_STALE] + c[COUNT_STRAY] + c[COUNT_EARLY];
  char of[160] = "";
  if (dropped > 0)
    snprintf(of, sizeof of, " (damaged %" PRIu32 " forged %" PRIu32 " stale %" PRIu32 " stray %" PRIu32 " early %" PRIu32 ")", c[COUNT_DAMAGED],
             c[COUNT_FORGED], c[COUNT_STALE], c[COUNT_STRAY], c[COUNT_EARLY]);
  snprintf(out, room, "; posted %" PRIu32 " lost %" PRIu32 " repeated %" PRIu32 " dropped %" PRIu32 "%s restarts %" PRIu32, c[COUNT_POSTED], c[COUNT_LOST],
           c[COUNT_REPEATED], dropped, of, outcome->restarts);
}

/* a board that was started just now: it has the job, and a socket of its own */
static _Noreturn void be_started(const struct job *job, const struct crew *crew, const struct net *coordinator, uint32_t board, bool again) {
  struct net net = {.socket = crew->hand[board].socket, .hosts = coordinator->hosts, .key = coordinator->key};
  close(coordinator->socket);
  tell_as(board);
  _exit((int)board_run(&net, job, board, net_chance(), again));
}

static enum status run(const struct options *options, const struct key *key) {
  static struct hosts hosts;
  static struct crew crew;
  struct job job;
  struct outcome outcome = {0};
  struct net net = {.socket = -1, .hosts = &hosts, .key = key};
  uint32_t board = COORDINATOR;
  bool again = false;
  char counts[320];
  enum status status = job_read(&job, options);
  if (status == STATUS_DONE) status = open_all(options, &job, &hosts, &crew, &net.socket);
  if (status == STATUS_DONE) status = coordinate(&job, &net, options->hosts == NULL ? &crew : NULL, &outcome, &board, &again);
  if (board != COORDINATOR) be_started(&job, &crew, &net, board, again);
  if (options->hosts == NULL && crew.boards > 0) crew_close(&crew);
  else process_end_as_usual();
  if (net.socket >= 0) close(net.socket);
  write_counts(counts, sizeof counts, &outcome);
  if (status == STATUS_DONE) status = harvest(options, &job.plan, job.source, outcome.grid, outcome.seconds, counts);
  free(outcome.grid);
  job_free(&job);
  return status;
}

int main(int argc, char **argv) {
  static struct key key;
  struct options options;
  bool over = false;
  process_prepare();
  enum status status = options_read(argc, argv, true, &options, &over);
  if (status == STATUS_DONE && !over && options.key != NULL) status = key_read(&key, options.key);
  if (status == STATUS_DONE && !over) status = options.boarded ? be_a_board(&options, &key) : run(&options, &key);
  /* --help and --version */
  if (fflush(stdout) != 0 && status == STATUS_DONE) status = tell(STATUS_FILE, "can't write to standard output: %s", strerror(errno));
  return (int)status;
}

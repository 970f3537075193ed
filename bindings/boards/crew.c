#define _GNU_SOURCE
#include "crew.h"

#include <errno.h>
#include <math.h>
#include <stdio.h>
#include <string.h>
#include <sys/prctl.h>
#include <sys/resource.h>
#include <sys/wait.h>
#include <unistd.h>

#include "clock.h"
#include "net.h"
#include "process.h"
#include "tell.h"

/* seconds: a board that lives shorter dies young; how long it is awaited then, at least and at most; how long where the machine has no process */
static const double YOUNG = 0.05, LEAST_WAIT = 0.005, MOST_WAIT = 0.2, NO_PROCESS = 0.5;

static struct crew *working; /* for the handlers of signals */
static volatile sig_atomic_t woken;

static void wake(int number) { (void)number, woken = 1; }

/* What a handler may do: the boards are ended and awaited. */
static void end_all(void) {
  for (uint32_t b = 0; working != NULL && b < working->boards; b++)
    if (working->hand[b].process > 0) kill(working->hand[b].process, SIGKILL);
  for (uint32_t b = 0; working != NULL && b < working->boards; b++)
    while (working->hand[b].process > 0 && waitpid(working->hand[b].process, NULL, 0) < 0 && errno == EINTR) {}
}

/* the most boards have 65 sockets */
static void raise_limit(void) {
  struct rlimit limit;
  if (getrlimit(RLIMIT_NOFILE, &limit) != 0 || limit.rlim_cur >= limit.rlim_max) return;
  limit.rlim_cur = limit.rlim_max;
  (void)setrlimit(RLIMIT_NOFILE, &limit);
}

static void heed_signals(struct crew *crew) {
  sigset_t child;
  sigemptyset(&child);
  sigaddset(&child, SIGCHLD);
  /* a board that ends wakes the coordinator where it waits, and nowhere else */
  sigprocmask(SIG_BLOCK, &child, &crew->before);
  sigdelset(&crew->before, SIGCHLD);
  struct sigaction action = {.sa_handler = wake};
  sigemptyset(&action.sa_mask);
  sigaction(SIGCHLD, &action, NULL);
  process_before_end(end_all);
}

enum status crew_make(struct crew *out, struct hosts *hosts, uint32_t boards, int *coordinator) {
  *out = (struct crew){.boards = boards};
  for (uint32_t b = 0; b < boards; b++) out->hand[b].socket = -1;
  hosts_here(hosts, boards);
  raise_limit();
  enum status status = net_open(&hosts->node[COORDINATOR], coordinator);
  for (uint32_t b = 0; b < boards && status == STATUS_DONE; b++) status = net_open(&hosts->node[b], &out->hand[b].socket);
  working = out;
  woken = 1;
  heed_signals(out);
  return status;
}

/* ---- one board */

/* Has it ended? `status` is its own where it ended of itself. */
static bool has_ended(struct hand *hand, enum status *status) {
  int how = 0;
  const pid_t found = waitpid(hand->process, &how, WNOHANG);
  if (found == 0 || (found < 0 && errno != ECHILD)) return false;
  hand->process = 0;
  *status = found > 0 && WIFEXITED(how) ? (enum status)WEXITSTATUS(how) : STATUS_LOST;
  return true;
}

/* in the board: of the coordinator's it keeps its own socket alone, and leaves the signals that end a run to it */
static void become(struct crew *crew, uint32_t board, pid_t starting) {
  /* a board does not outlive the process that started it */
  prctl(PR_SET_PDEATHSIG, SIGKILL);
  if (getppid() != starting) _exit(STATUS_LOST);
  working = NULL;
  process_heed_no_end();
  sigprocmask(SIG_SETMASK, &crew->before, NULL);
  for (uint32_t k = 0; k < crew->boards; k++)
    if (k != board) close(crew->hand[k].socket);
}

static void start(struct crew *crew, uint32_t board, double time) {
  struct hand *hand = &crew->hand[board];
  const pid_t starting = getpid();
  const pid_t process = fork();
  if (process == 0) {
    become(crew, board, starting);
    return;
  }
  if (hand->born > 0 && process > 0) crew->restarts++;
  if (process > 0) {
    hand->process = process, hand->born = time;
    return;
  }
  tell(STATUS_MACHINE, "no process for board %u: %s; it is tried again", (unsigned)board, strerror(errno));
  hand->due = time + NO_PROCESS;
  crew->missing = true;
}

/* one that dies young again and again is given more and more time, so that it does not keep the machine busy */
static void mourn(struct hand *hand, double time) {
  hand->hasty = time - hand->born < YOUNG ? hand->hasty + 1 : 0;
  hand->due = hand->hasty < 3 ? time : time + fmin(ldexp(LEAST_WAIT, (int)fmin(hand->hasty, 16) - 3), MOST_WAIT);
}

/* ---- all */

enum status crew_tend(struct crew *crew, uint32_t *board, bool *again) {
  const double time = now();
  const pid_t starting = getpid();
  *board = COORDINATOR;
  if (!woken && !crew->missing) return STATUS_DONE;
  woken = 0, crew->missing = false;
  fflush(NULL);
  for (uint32_t b = 0; b < crew->boards; b++) {
    struct hand *hand = &crew->hand[b];
    enum status ended = STATUS_DONE;
    if (hand->process > 0 && has_ended(hand, &ended)) mourn(hand, time);
    if (ended == STATUS_REFUSED) return ended;
    if (hand->process == 0 && hand->due > time) crew->missing = true;
    if (hand->process > 0 || hand->due > time) continue;
    *again = hand->born > 0;
    start(crew, b, time);
    if (getpid() == starting) continue;
    *board = b;
    return STATUS_DONE;
  }
  return STATUS_DONE;
}

void crew_end(struct crew *crew, uint32_t board) {
  if (crew->hand[board].process > 0) kill(crew->hand[board].process, SIGKILL);
}

bool crew_has_ended(struct crew *crew) {
  bool all = true;
  enum status ended;
  for (uint32_t b = 0; b < crew->boards; b++) all = (crew->hand[b].process == 0 || has_ended(&crew->hand[b], &ended)) && all;
  return all;
}

void crew_close(struct crew *crew) {
  end_all();
  working = NULL;
  for (uint32_t b = 0; b < crew->boards; b++)
    if (crew->hand[b].socket >= 0) close(crew->hand[b].socket);
  process_end_as_usual();
  sigprocmask(SIG_SETMASK, &crew->before, NULL);
}

#define _POSIX_C_SOURCE 200809L
#include "coordinator.h"

#include <inttypes.h>
#include <math.h>
#include <stdlib.h>

#include "part.h"
#include "seats.h"
#include "tell.h"

enum { MOST_AT_ONCE = 256 };

/* seconds: between two looks at the clock; between two tellings of the end; how long the boards are told it */
static const double LOOK = 0.02, END_EVERY = 0.01, END_LASTS = 0.5;

static void take_mail(struct seats *seats, const struct crew *crew, double seconds) {
  static struct datagram came;
  net_await(seats->net, seconds, crew != NULL ? &crew->before : NULL);
  for (uint32_t k = 0; k < MOST_AT_ONCE && net_receive(seats->net, &came); k++) seats_take(seats, &came);
}

/* a board of this machine that says nothing is ended, which starts it again: it may be halted */
static void rouse(struct seats *seats, struct crew *crew, double time) {
  const double most = seats->job->timeout / 2;
  for (uint32_t b = 0; b < seats->boards && crew != NULL; b++) {
    if (time - seats->seat[b].heard < most) continue;
    tell(STATUS_DONE, "board %" PRIu32 " says nothing for %g seconds: it is started again", b, most);
    crew_end(crew, b);
    seats->seat[b].heard = time;
  }
}

static enum status watch(struct seats *seats, struct crew *crew) {
  const double time = waited_seconds(&seats->waited), timeout = seats->job->timeout;
  if (time - seats->progress <= timeout) {
    rouse(seats, crew, time);
    return STATUS_DONE;
  }
  tell(STATUS_TIMEOUT, "no board came further for %g seconds", timeout);
  for (uint32_t b = 0; b < seats->boards; b++) seats_tell(seats, b, time);
  return STATUS_TIMEOUT;
}

/* until each board has answered, or half a second has gone: no more is wanted of them */
static void end(struct seats *seats, struct crew *crew, enum status status) {
  const double until = now() + END_LASTS;
  for (double due = 0; !seats_have_ended(seats) && now() < until;) {
    if (now() >= due) {
      seats_post_end(seats, status);
      due = now() + END_EVERY;
    }
    take_mail(seats, crew, END_EVERY / 2);
    if (crew != NULL && crew_has_ended(crew)) break;
  }
}

static enum status collect(const struct seats *seats, uint32_t **grid) {
  const uint32_t *parts[ROLWYDDAC_MOST_PROCESSORS];
  for (uint32_t b = 0; b < seats->boards; b++) parts[b] = seats->seat[b].part;
  *grid = calloc(seats->job->plan.sizes.grid, sizeof **grid);
  return *grid == NULL ? tell_no_memory() : parts_collect(seats->job, parts, *grid);
}

static void add_up(const struct seats *seats, const struct crew *crew, struct outcome *out) {
  out->counts = seats->net->counts;
  out->restarts = crew != NULL ? crew->restarts : 0;
  for (uint32_t b = 0; b < seats->boards; b++) {
    const struct counts counted = seats_counts(&seats->seat[b]);
    counts_add(&out->counts, &counted);
    if (crew == NULL && seats->seat[b].lives > 1) out->restarts += seats->seat[b].lives - 1;
  }
}

enum status coordinate(const struct job *job, struct net *net, struct crew *crew, struct outcome *out, uint32_t *board, bool *again) {
  static struct seats seats;
  const double start = now();
  *board = COORDINATOR;
  enum status status = seats_make(&seats, job, net);
  while (status == STATUS_DONE && seats.parts < seats.boards) {
    if (crew != NULL) status = crew_tend(crew, board, again);
    if (*board != COORDINATOR) return STATUS_DONE;
    if (status == STATUS_DONE) take_mail(&seats, crew, fmin(LOOK, job->timeout / 10));
    if (status == STATUS_DONE && seats.parts < seats.boards) status = watch(&seats, crew);
  }
  if (status == STATUS_DONE) status = collect(&seats, &out->grid);
  out->seconds = now() - start;
  end(&seats, crew, status);
  add_up(&seats, crew, out);
  seats_free(&seats);
  return status;
}

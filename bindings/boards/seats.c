#define _POSIX_C_SOURCE 200809L
#include "seats.h"

#include <inttypes.h>
#include <math.h>
#include <stdlib.h>
#include <string.h>

#include "part.h"
#include "tell.h"

/* seconds: a job is not handed out more often to the same life: what another puts there again and again is not to flood a board */
static const double MOMENT = 0.004;

/* seconds: this process looks at the clock more often than that, unless it is stopped */
static const double LEAST_SLICE = 0.1;

enum status seats_make(struct seats *out, const struct job *job, struct net *net) {
  *out = (struct seats){.job = job, .net = net, .envelope = {job->fingerprint, job->run, 0, COORDINATOR}, .boards = plan_boards(&job->plan)};
  out->waited = waited_from_now(fmax(job->timeout / 16, LEAST_SLICE));
  for (uint32_t b = 0; b < out->boards; b++) {
    struct seat *s = &out->seat[b];
    s->part_words = part_length(job, b);
    s->part = calloc(s->part_words, sizeof *s->part);
    if (s->part == NULL) return tell_no_memory();
  }
  return STATUS_DONE;
}

void seats_free(struct seats *seats) {
  for (uint32_t b = 0; b < seats->boards; b++) free(seats->seat[b].part);
}

/* ---- what is posted */

static void post(struct seats *seats, enum kind kind, uint32_t to, uint64_t life, uint32_t item, const uint32_t *words, size_t length) {
  seats->envelope.life = life;
  post_item(seats->net, &seats->envelope, kind, to, item, words, length, 0);
}

void seats_post_end(struct seats *seats, enum status status) {
  const uint32_t none = 0;
  seats->ending = true;
  for (uint32_t b = 0; b < seats->boards; b++)
    if (!seats->seat[b].ended && seats->seat[b].lives > 0) post(seats, KIND_END, b, seats->seat[b].life, status, &none, 0);
}

/* nothing is kept of who was sent what: a board asks until it has all */
static void hand_out(struct seats *seats, const struct letter *asked) {
  static uint32_t words[MOST_JOB];
  const uint32_t board = asked->line.sender;
  const double time = now();
  struct seat *s = &seats->seat[board];
  if (s->handed_life == asked->line.life && time - s->handed < MOMENT) return;
  s->handed_life = asked->line.life, s->handed = time;
  s->heard = waited_seconds(&seats->waited);
  const uint32_t length = job_words(seats->job, board, s->lives > 0, words);
  const struct envelope envelope = {NO_RUN, NO_RUN, asked->line.life, COORDINATOR};
  post_item(seats->net, &envelope, KIND_JOB, board, length, words, length, mask_of(asked->words));
}

/* ---- what comes */

/* the life of that number; null where it is not known */
static struct life *find_life(struct seat *s, uint64_t number) {
  for (uint32_t k = 0; k < s->lives && k < MOST_LIVES; k++)
    if (s->known[k].number == number) return &s->known[k];
  return NULL;
}

/* It is there: perhaps in another life. Only what has the run's number tells a life: an asking for a job may be one of an earlier run. */
static struct seat *hear(struct seats *seats, const struct letter *l) {
  struct seat *s = &seats->seat[l->line.sender];
  s->heard = waited_seconds(&seats->waited);
  if (s->lives == 0) seats->progress = s->heard;
  if (s->life != l->line.life) s->ended = false;
  s->life = l->line.life;
  if (find_life(s, s->life) != NULL) return s;
  struct life *new = &s->known[s->lives++ % MOST_LIVES];
  counts_add(&s->earlier, &new->counts);
  *new = (struct life){.number = s->life};
  return s;
}

struct counts seats_counts(const struct seat *seat) {
  struct counts all = seat->earlier;
  for (uint32_t k = 0; k < seat->lives && k < MOST_LIVES; k++) counts_add(&all, &seat->known[k].counts);
  return all;
}

static uint64_t how_far(const struct report *r) { return (uint64_t)r->finished << 40 | (uint64_t)(r->stage & 255) << 32 | r->sent; }

static void take_report(struct seats *seats, const struct letter *l) {
  if (l->line.count != REPORT_WORDS) {
    post_count(seats->net, ROLWYDDAC_NO_SUCH);
    return;
  }
  struct seat *s = hear(seats, l);
  memcpy(&s->last, l->words, sizeof s->last);
  find_life(s, s->life)->counts = s->last.counts;
  if (how_far(&s->last) > s->furthest) s->furthest = how_far(&s->last), seats->progress = s->heard;
  s->ended = l->line.kind == KIND_BYE && seats->ending;
  if (l->line.kind == KIND_BYE) return;
  /* a board whose part is not there, though it has finished, posts the chunks that are not */
  uint32_t words[MASK_WORDS];
  mask_put(words, s->part_there);
  post(seats, KIND_BEAT, l->line.sender, s->life, l->line.item, words, s->whole ? 0 : MASK_WORDS);
}

/* a chunk of whatever life: a board that has no tiles left has the sweep's words, in each of its lives */
static void take_part(struct seats *seats, const struct letter *l) {
  struct seat *s = hear(seats, l);
  const rolwyddac_taken taken = rolwyddac_chunk(l->line.chunk, l->line.chunks, l->words, l->line.count, s->part, s->part_words, s->part_there);
  if (taken.number != ROLWYDDAC_DONE) post_count(seats->net, taken.number);
  else if (taken.mask == s->part_there) seats->net->counts.of[COUNT_REPEATED]++;
  else seats->progress = s->heard;
  s->part_there = taken.mask;
  if (taken.number == ROLWYDDAC_DONE && taken.whole != 0 && !s->whole) s->whole = true, seats->parts++;
}

void seats_take(struct seats *seats, const struct datagram *came) {
  struct letter l;
  const struct envelope none = {NO_RUN, NO_RUN, 0, COORDINATOR};
  uint32_t number = post_read(seats->net, &seats->envelope, came, &l);
  const bool of_run = number != ROLWYDDAC_STALE;
  if (!of_run) number = post_read(seats->net, &none, came, &l);
  if (number != ROLWYDDAC_DONE) post_count(seats->net, number);
  else if (!of_run && l.line.kind == KIND_JOIN && l.line.count == MASK_WORDS) hand_out(seats, &l);
  else if (of_run && (l.line.kind == KIND_STATE || l.line.kind == KIND_BYE)) take_report(seats, &l);
  else if (of_run && l.line.kind == KIND_PART) take_part(seats, &l);
  else post_count(seats->net, ROLWYDDAC_NO_SUCH);
}

/* ---- what is told */

bool seats_have_ended(const struct seats *seats) {
  for (uint32_t b = 0; b < seats->boards; b++)
    if (!seats->seat[b].ended) return false;
  return true;
}

void seats_tell(const struct seats *seats, uint32_t board, double time) {
  const struct seat *s = &seats->seat[board];
  const struct plan *plan = &seats->job->plan;
  const double silent = time - s->heard;
  if (s->lives == 0) tell(STATUS_TIMEOUT, "board %" PRIu32 " was never heard of", board);
  else if (silent > seats->job->timeout / 2) tell(STATUS_TIMEOUT, "board %" PRIu32 " was last heard of %.1f seconds ago", board, silent);
  else if (s->last.done != 0 && !s->whole) tell(STATUS_TIMEOUT, "board %" PRIu32 " has finished, and its part did not come", board);
  for (uint32_t k = 0; k < s->last.waits && k < MOST_AWAITED; k++)
    if (s->last.awaited[k] < plan_messages(plan))
      tell(STATUS_TIMEOUT, "board %" PRIu32 " waits at tile %" PRIu32 " for message %" PRIu32 " of board %" PRIu32, board, s->last.tile, s->last.awaited[k],
           plan_message(plan, s->last.awaited[k])[ROLWYDDAC_ROW_SENDING_PROCESSOR]);
}

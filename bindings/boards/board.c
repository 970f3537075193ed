#define _POSIX_C_SOURCE 200809L
#include "board.h"

#include <math.h>
#include <stdlib.h>
#include <string.h>

#include "clock.h"
#include "mail.h"
#include "part.h"
#include "report.h"
#include "tell.h"
#include "work.h"

enum { MOST_AT_ONCE = 128 };

/* seconds: how long a board that is busy does not look for mail; between two askings at least, and at most unless answers take longer; between two reports */
static const double BUSY = 0.0005, LEAST_WAIT = 0.004, MOST_WAIT = 0.02, REPORT_EVERY = 0.1;

struct board {
  struct net *net;
  const struct job *job;
  uint32_t me;
  struct mail mail;
  uint32_t *part; /* once it has finished */
  size_t part_words;
  double part_posted;
  uint32_t tile_cells;
  bool idle, finished, over;
  enum status end;
  double looked;            /* for mail */
  double ask_due, ask_wait; /* the next asking, and how long after it the one behind */
  double report_due, report_wait;
  uint32_t reports;
  double reported, trip; /* when the last one was posted; how long an answer takes */
  bool handed_in;        /* its part is there */
  struct waited waited;
  double answered; /* when the coordinator last did */
};

/* ---- what it says */

static struct report report_of(struct board *b) {
  const rolwyddac_progress *record = b->mail.areas.progress + b->me;
  struct report r = {.finished = record->finished, .stage = record->stage, .sent = record->sent, .done = b->finished, .counts = b->net->counts};
  const rolwyddac_waiting at = areas_awaited(&b->mail.areas, b->me, b->mail.marks);
  r.tile = at.tile;
  for (uint32_t m = 0; m < plan_messages(&b->job->plan) && r.waits < MOST_AWAITED && at.number == ROLWYDDAC_DONE; m++)
    if (b->mail.marks[m] != 0) r.awaited[r.waits++] = m;
  return r;
}

static void post_report(struct board *b, enum kind kind) {
  const struct report r = report_of(b);
  uint32_t words[REPORT_WORDS];
  memcpy(words, &r, sizeof r);
  post_item(b->net, &b->mail.envelope, kind, COORDINATOR, ++b->reports, words, REPORT_WORDS, 0);
}

/* the chunks of its part that the coordinator has not */
static uint32_t post_part(struct board *b, uint64_t there) {
  b->part_posted = now();
  return post_item(b->net, &b->mail.envelope, KIND_PART, COORDINATOR, b->me, b->part, b->part_words, there);
}

/* twice as long as an answer takes: a message is not to be asked for while it is on its way */
static double first_wait(const struct board *b) { return fmax(2 * b->trip, LEAST_WAIT); }

static void begin_to_wait(struct board *b, double time) {
  b->ask_wait = first_wait(b);
  b->ask_due = time + b->ask_wait;
}

/* the most between two askings, and between two reports of a board whose part is not there yet */
static double most_wait(const struct board *b) { return fmax(MOST_WAIT, 4 * b->trip); }

static double report_every(const struct board *b) { return fmin(b->job->timeout / 10, REPORT_EVERY); }

static void keep_times(struct board *b) {
  const double time = now();
  if (b->idle && !b->finished && time >= b->ask_due) {
    mail_ask(&b->mail);
    b->ask_due = time + b->ask_wait;
    b->ask_wait = fmin(1.5 * b->ask_wait, most_wait(b));
  }
  if (time < b->report_due) return;
  b->report_wait = b->finished && !b->handed_in ? fmin(1.5 * b->report_wait, most_wait(b)) : report_every(b);
  b->report_due = time + b->report_wait;
  b->reported = time;
  post_report(b, KIND_STATE);
}

/* ---- what comes */

static void take_beat(struct board *b, const struct letter *l) {
  b->answered = waited_seconds(&b->waited);
  if (l->line.item == b->reports) b->trip += (fmin(now() - b->reported, REPORT_EVERY) - b->trip) / 4;
  b->handed_in = b->finished && l->line.count != MASK_WORDS;
  /* a part that was posted a moment ago may be on its way */
  if (b->finished && !b->handed_in && now() - b->part_posted > LEAST_WAIT) b->net->counts.of[COUNT_LOST] += post_part(b, mask_of(l->words));
}

static enum status take_message(struct board *b, const struct datagram *came, uint32_t message) {
  bool taken = false;
  const enum status status = mail_take(&b->mail, came, message, &taken);
  if (taken) begin_to_wait(b, now());
  return status;
}

static void take_from_coordinator(struct board *b, const struct letter *l) {
  if (l->line.life != b->mail.envelope.life) {
    post_count(b->net, ROLWYDDAC_STALE);
  } else if (l->line.kind == KIND_BEAT) {
    take_beat(b, l);
  } else if (l->line.kind == KIND_END) {
    b->over = true;
    b->end = (enum status)l->line.item;
  } else {
    post_count(b->net, ROLWYDDAC_NO_SUCH);
  }
}

static enum status take_datagram(struct board *b, const struct datagram *came) {
  struct letter l;
  const uint32_t number = post_read(b->net, &b->mail.envelope, came, &l);
  if (number != ROLWYDDAC_DONE) post_count(b->net, number);
  else if (l.line.sender == COORDINATOR) take_from_coordinator(b, &l);
  else if (l.line.kind == KIND_MESSAGE) return take_message(b, came, l.line.item);
  else if (l.line.kind == KIND_ASK) mail_answer(&b->mail, &l);
  else post_count(b->net, ROLWYDDAC_NO_SUCH);
  return STATUS_DONE;
}

static enum status take_mail(struct board *b) {
  static struct datagram came;
  enum status status = STATUS_DONE;
  for (uint32_t k = 0; k < MOST_AT_ONCE && status == STATUS_DONE && !b->over && net_receive(b->net, &came); k++) status = take_datagram(b, &came);
  b->looked = now();
  return status;
}

/* ---- its life */

static enum status finish(struct board *b) {
  b->finished = true;
  b->part_words = part_length(b->job, b->me);
  b->part = malloc(b->part_words * sizeof *b->part);
  if (b->part == NULL) return tell_no_memory();
  part_write(b->job, &b->mail.areas, b->me, b->part);
  post_part(b, 0);
  b->report_wait = first_wait(b);
  b->report_due = now() + b->report_wait;
  return STATUS_DONE;
}

/* one turn; the board is idle where it has to wait for mail */
static enum status take_turn(struct board *b) {
  enum { CALCULATE = 1 };
  const bool was_idle = b->idle, calculates = b->mail.areas.progress[b->me].stage == CALCULATE;
  const uint32_t number = areas_turn(&b->mail.areas, b->me);
  b->idle = number != ROLWYDDAC_DONE;
  if (number == ROLWYDDAC_FINISHED) return finish(b);
  if (number != ROLWYDDAC_DONE && number != ROLWYDDAC_WAITING) return tell_refusal("turn", number);
  if (b->idle && !was_idle) begin_to_wait(b, now());
  if (!b->idle && calculates) work_on(b->tile_cells, b->job->work);
  return b->idle ? STATUS_DONE : mail_post(&b->mail);
}

static enum status live(struct board *b) {
  enum status status = STATUS_DONE;
  while (status == STATUS_DONE && !b->over) {
    if (b->idle) net_await(b->net, fmin(b->finished ? HUGE_VAL : b->ask_due, b->report_due) - now(), NULL);
    if (b->idle || now() - b->looked > BUSY) status = take_mail(b);
    if (status == STATUS_DONE && !b->over) keep_times(b);
    if (status == STATUS_DONE && !b->over && !b->finished) status = take_turn(b);
    if (status == STATUS_DONE && waited_seconds(&b->waited) - b->answered > b->job->timeout)
      status = tell(STATUS_TIMEOUT, "nothing was heard of the coordinator for %g seconds", b->job->timeout);
  }
  if (b->over) post_report(b, KIND_BYE);
  return b->over ? b->end : status;
}

static enum status make(struct board *b, uint64_t life, bool again) {
  const struct envelope envelope = {b->job->fingerprint, b->job->run, life, b->me};
  const double time = now();
  b->trip = LEAST_WAIT / 2;
  b->tile_cells = work_cells(&b->job->plan);
  b->waited = waited_from_now(fmax(b->job->timeout / 16, REPORT_EVERY));
  b->report_due = b->looked = time;
  const enum status status = mail_make(&b->mail, b->net, b->job, &envelope);
  if (status != STATUS_DONE) return status;
  /* the first turn of a board that waits at once: one that was there before need not be patient */
  b->idle = true;
  b->ask_wait = first_wait(b);
  b->ask_due = time + (again ? 0 : b->ask_wait);
  return take_turn(b);
}

enum status board_run(struct net *net, const struct job *job, uint32_t me, uint64_t life, bool again) {
  struct board b = {.net = net, .job = job, .me = me};
  enum status status = make(&b, life, again);
  if (status == STATUS_DONE) status = live(&b);
  mail_free(&b.mail);
  free(b.part);
  return status;
}

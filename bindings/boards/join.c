#define _POSIX_C_SOURCE 200809L
#include "join.h"

#include <math.h>

#include "clock.h"
#include "post.h"
#include "tell.h"

/* seconds between two askings */
static const double LEAST_WAIT = 0.01, MOST_WAIT = 0.1;

/* what came of the job so far */
struct share {
  uint32_t words[MOST_JOB], length;
  uint64_t there;
  bool whole;
};

/* only a job that answers this life's asking is one: those of earlier runs have another life in them */
static void take_chunk(struct share *s, const struct letter *l) {
  const uint32_t length = l->line.item;
  if (length > MOST_JOB) return;
  if (s->length != length) s->length = length, s->there = 0;
  const rolwyddac_taken taken = rolwyddac_chunk(l->line.chunk, l->line.chunks, l->words, l->line.count, s->words, length, s->there);
  s->there = taken.mask;
  if (taken.number != ROLWYDDAC_DONE || taken.whole == 0) return;
  /* chunks of the jobs of two runs: a coordinator was started again with another one */
  s->whole = job_holds(s->words, length);
  if (!s->whole) s->there = 0;
}

static void take_mail(struct net *net, const struct envelope *envelope, struct share *s) {
  enum { MOST_AT_ONCE = 256 };
  static struct datagram came;
  for (uint32_t k = 0; k < MOST_AT_ONCE && !s->whole && net_receive(net, &came); k++) {
    struct letter l;
    const uint32_t number = post_read(net, envelope, &came, &l);
    /* packets of a run, for a board that has no job yet */
    if (number == ROLWYDDAC_STALE) net->counts.of[COUNT_EARLY]++;
    else if (number != ROLWYDDAC_DONE) post_count(net, number);
    else if (l.line.kind != KIND_JOB || l.line.sender != COORDINATOR || l.line.life != envelope->life) post_count(net, ROLWYDDAC_STALE);
    else take_chunk(s, &l);
  }
}

enum status join(struct net *net, uint32_t me, uint64_t life, double seconds, struct job *out, bool *again) {
  static struct share s;
  const struct envelope envelope = {NO_RUN, NO_RUN, life, me};
  const double until = now() + seconds;
  double due = 0, wait = LEAST_WAIT;
  uint64_t before = 0;
  *out = (struct job){0};
  while (!s.whole) {
    const double time = now();
    if (time > until) return tell(STATUS_TIMEOUT, "no job for %g seconds", seconds);
    if (time >= due) {
      uint32_t words[MASK_WORDS];
      mask_put(words, s.there);
      post_item(net, &envelope, KIND_JOIN, COORDINATOR, 0, words, MASK_WORDS, 0);
      wait = s.there != before ? LEAST_WAIT : fmin(2 * wait, MOST_WAIT);
      before = s.there;
      due = time + wait;
    }
    net_await(net, fmin(due, until) - now(), NULL);
    take_mail(net, &envelope, &s);
  }
  return job_take(out, me, s.words, s.length, again);
}

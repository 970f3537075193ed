/* What the coordinator knows of the boards. All but the parts only says when to do something: lost, late or wrong it can delay, never make wrong. */
#ifndef BOARDS_SEATS_H
#define BOARDS_SEATS_H

#include <stdbool.h>
#include <stdint.h>

#include "clock.h"
#include "job.h"
#include "net.h"
#include "post.h"
#include "report.h"
#include "status.h"

/* A life of a board, and what was counted in it. */
struct life {
  uint64_t number;
  struct counts counts;
};

/* lives of a board that are told apart: packets of an earlier one that come late begin none */
enum { MOST_LIVES = 64 };

struct seat {
  uint64_t life; /* the one it was last heard in */
  uint32_t lives;
  struct life known[MOST_LIVES]; /* the last ones */
  double heard;         /* when it was last, or was started */
  uint64_t handed_life; /* whom it was last handed its job, and when */
  double handed;
  struct report last;
  struct counts earlier; /* those of lives that are not known any more */
  uint64_t furthest;     /* of all lives */
  uint32_t *part;
  size_t part_words;
  uint64_t part_there;
  bool whole; /* its part is there */
  bool ended; /* it has said that it ends */
};

struct seats {
  const struct job *job;
  struct net *net;
  struct envelope envelope; /* its life is that of the board that is written to */
  uint32_t boards, parts;   /* how many boards, and how many of their parts are there */
  bool ending;              /* the boards are told that the run has ended: what one said of its end before is of another run */
  struct seat seat[ROLWYDDAC_MOST_PROCESSORS];
  struct waited waited;
  double progress; /* when some board last came further than ever */
};

/* seats_free is called in any case. */
enum status seats_make(struct seats *out, const struct job *job, struct net *net);

/* Heeds what came. */
void seats_take(struct seats *seats, const struct datagram *came);

/* Tells each board that is there and has not ended that the run has, with this status. */
void seats_post_end(struct seats *seats, enum status status);

/* What a board counted in all its lives. */
struct counts seats_counts(const struct seat *seat);

/* Has each board ended? */
bool seats_have_ended(const struct seats *seats);

/* Tells of a board what it waits for, or that nothing is heard of it. */
void seats_tell(const struct seats *seats, uint32_t board, double time);

void seats_free(struct seats *seats);

#endif

/* What a process counts of its packets: words alone, so that they go into a report as they are. */
#ifndef BOARDS_COUNTS_H
#define BOARDS_COUNTS_H

#include <stddef.h>
#include <stdint.h>

enum count {
  COUNT_POSTED,   /* packets given to the network */
  COUNT_LOST,     /* packets of messages and parts that were posted again: lost, late, or forgotten by a board that died */
  COUNT_REPEATED, /* packets that brought what was there already */
  COUNT_DAMAGED,  /* turned away: cut or corrupt */
  COUNT_FORGED,   /* turned away: their tag is not the key's */
  COUNT_STALE,    /* turned away: of another run, recipe or life */
  COUNT_STRAY,    /* turned away: from another address than the sender's, for another board, or nothing that is due here */
  COUNT_EARLY,    /* turned away: for a board that had no job yet */
  COUNTS
};

struct counts {
  uint32_t of[COUNTS];
};

static inline void counts_add(struct counts *to, const struct counts *more) {
  for (size_t k = 0; k < COUNTS; k++) to->of[k] += more->of[k];
}

#endif

/* How far a board is, as it tells the coordinator: words alone. */
#ifndef BOARDS_REPORT_H
#define BOARDS_REPORT_H

#include <stdint.h>

#include "counts.h"

enum { MOST_AWAITED = 8 };

struct report {
  uint32_t finished, stage, sent; /* its record */
  uint32_t done;                  /* 1 where it has no tiles left */
  uint32_t tile, waits;           /* it waits at the tile for so many messages, the first of them these */
  uint32_t awaited[MOST_AWAITED];
  struct counts counts; /* in this life */
};

enum { REPORT_WORDS = sizeof(struct report) / sizeof(uint32_t) };

#endif

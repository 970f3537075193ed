/* The boards that the coordinator has started itself, on its own machine, and starts again when they end. Only these count: the process may have been given
 * other children by the program whose place it took, or, as the first process of a container, by anyone. */
#ifndef BOARDS_CREW_H
#define BOARDS_CREW_H

#include <signal.h>
#include <stdbool.h>
#include <stdint.h>
#include <sys/types.h>

#include "hosts.h"
#include "status.h"

struct hand {
  int socket;       /* it stays the same in all lives of a board, so that its address does */
  pid_t process;    /* 0 while it is not there */
  double born, due; /* when it was started, and when it may be started again */
  uint32_t hasty;   /* how often in turn it died young */
};

struct crew {
  uint32_t boards;
  struct hand hand[ROLWYDDAC_MOST_PROCESSORS];
  uint32_t restarts;
  bool missing;    /* a board is to be started later */
  sigset_t before; /* the signals that were blocked before: to wait with */
};

/* Opens sockets for so many boards and the coordinator, whose addresses go to `hosts`. crew_close is called in any case. */
enum status crew_make(struct crew *out, struct hosts *hosts, uint32_t boards, int *coordinator);

/* Starts boards that are not there. Returns in each board too, with its number in `board` and whether it was there before in `again`; else `board` is
 * COORDINATOR. A board that ended because the engine refused something ends the run with its status. */
enum status crew_tend(struct crew *crew, uint32_t *board, bool *again);

/* Ends a board: it is started again when the crew is tended. */
void crew_end(struct crew *crew, uint32_t board);

/* Have all ended of themselves? */
bool crew_has_ended(struct crew *crew);

/* Ends all that are there, and gives back what crew_make took. */
void crew_close(struct crew *crew);

#endif

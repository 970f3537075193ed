/* What a run asks of a transport: it carries packets, of which it knows nothing, between processes that share no memory.
 * mpi.c is one.
 *
 * Packets of one board to another arrive in the order of their posts, or one of the two is told to be lost; the run needs this only for
 * the farewell, which is a board's last packet. Packets of different boards arrive in any order. */
#ifndef BOARDS_MPI_TRANSPORT_H
#define BOARDS_MPI_TRANSPORT_H

#include <stdbool.h>
#include <stddef.h>
#include <stdint.h>

#include "status.h"

struct transport;

/* Opens the transport, before any option is read. Null where that can't be, which is told. */
struct transport *transport_open(int *argc, char ***argv);

/* Is this the process that reads the files? */
bool transport_reads(const struct transport *t);

/* What that process has in these bytes the others get. Only before transport_begin. */
void transport_share(struct transport *t, void *bytes, size_t length);

/* Has one process be each board, and returns in each, with `board` set, once all are there. A starting process that is no board itself
 * returns too, with `board` not set. Where the machine has no room it waits for it at most so many seconds. */
enum status transport_begin(struct transport *t, uint32_t boards, double seconds, bool *board);

/* The board this process is. */
uint32_t transport_me(const struct transport *t);

/* Sends a packet off, or keeps it in mind until it can be: the bytes stay as they are until transport_settled says yes, or until nothing
 * but transport_close is called any more. Never waits. */
enum status transport_post(struct transport *t, uint32_t to, const void *bytes, size_t length);

/* Is every packet posted off? */
bool transport_settled(struct transport *t);

enum transport_event {
  TRANSPORT_NOTHING, /* the time is over */
  TRANSPORT_PACKET,  /* a packet: its bytes are good until the next call */
  TRANSPORT_CLOSED   /* that board's end is closed: no more packets come from it */
};

struct arrival {
  uint32_t from;
  const uint32_t *words;
  size_t bytes;
};

/* Waits for the next event, at most so many seconds, and sends off what is kept in mind. */
enum transport_event transport_receive(struct transport *t, double seconds, struct arrival *out);

/* Board 0 hands in what the run came to, for the process that reads the files; the bytes stay as they are until transport_end returns. */
enum status transport_hand_in(struct transport *t, const void *bytes, size_t length);

/* Waits, in the process that reads the files, until no board can fail any more: one that does not end so many seconds after another is told.
 * Returns the run's status there, and where that is 0 `bytes` has what board 0 handed in. Elsewhere it returns 0 once it may end. */
enum status transport_end(struct transport *t, double seconds, void *bytes, size_t length);

/* Closes the transport of a process that ends with this status, and frees it. May not return where the status is not 0. */
void transport_close(struct transport *t, enum status status);

#endif

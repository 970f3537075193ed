/* A board's areas and its messages: posted, posted again for one that asks, taken in, asked for. Nothing is kept of who has what: a board that waits asks,
 * and says which chunks it has; whoever sends the message posts the others again, out of its own buffer. */
#ifndef BOARDS_MAIL_H
#define BOARDS_MAIL_H

#include <stdbool.h>
#include <stdint.h>

#include "areas.h"
#include "job.h"
#include "post.h"
#include "status.h"

struct mail {
  struct net *net;
  const struct plan *plan;
  struct envelope envelope;
  struct areas areas;
  uint32_t *parts;        /* what came of messages that are not whole, as long as the buffer */
  uint64_t *masks;        /* and which chunks, one mask a message */
  uint32_t *mine;         /* the messages that this board sends, in the order in which it does */
  uint32_t sends, posted; /* how many they are, and how many of them are posted */
  double *posted_at;      /* when each message was posted last */
  uint8_t *marks;         /* room for one byte a message */
  uint64_t life[MOST_NODES]; /* in which a board last said that it is new */
  bool heard[MOST_NODES];    /* a message of this board was taken in */
};

/* Makes the areas, with a fresh start in them. mail_free is called in any case. */
enum status mail_make(struct mail *out, struct net *net, const struct job *job, const struct envelope *envelope);

/* Posts the messages that turns have put in flight. */
enum status mail_post(struct mail *mail);

/* Takes in what came, which says that it is a chunk of that message. `taken` is set where the message was whole with it. */
enum status mail_take(struct mail *mail, const struct datagram *came, uint32_t message, bool *taken);

/* Posts again what a board asks for, if it was posted in this life. */
void mail_answer(struct mail *mail, const struct letter *ask);

/* Asks for what the next turn waits for. */
void mail_ask(struct mail *mail);

void mail_free(struct mail *mail);

#endif

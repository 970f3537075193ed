/* What a board posts. Each packet has room of its own, which is not written again: a transport may read it at any time until the end. */
#ifndef BOARDS_MPI_OUTBOX_H
#define BOARDS_MPI_OUTBOX_H

#include <stddef.h>
#include <stdint.h>

#include "areas.h"
#include "packet.h"
#include "status.h"
#include "transport.h"

struct outbox {
  struct transport *transport;
  const struct plan *plan;
  struct packet_key key;
  uint32_t me;
  uint32_t *mine; /* the messages this board sends, in the order in which it does */
  size_t sends;   /* how many they are */
  size_t posted;  /* and how many of them are posted */
  uint32_t *room; /* for all packets of the run */
  size_t used;
};

enum status outbox_make(struct outbox *out, struct transport *transport, const struct plan *plan, uint32_t run);

/* Posts each message that is in flight in the board's own areas, which are then told of its delivery. */
enum status outbox_post_messages(struct outbox *out, struct areas *areas);

/* Posts the board's part of the memories and its record to board 0. */
enum status outbox_post_part(struct outbox *out, const struct areas *areas);

/* Posts a packet without words of its own to all other boards: of PACKET_ALIVE any number of times, of another kind once. */
enum status outbox_post_all(struct outbox *out, enum packet_kind kind, uint32_t number);

void outbox_free(struct outbox *out);

#endif

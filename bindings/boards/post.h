/* Packets of the program's own kinds. */
#ifndef BOARDS_POST_H
#define BOARDS_POST_H

#include <stdbool.h>
#include <stddef.h>
#include <stdint.h>

#include "net.h"

enum kind {
  KIND_MESSAGE = ROLWYDDAC_KIND_MESSAGE, /* board to board: a chunk of message `item` */
  KIND_ASK,                              /* board to board: it waits for message `item`; words: enum ask_word */
  KIND_PART,                             /* board to coordinator: a chunk of its record and its own cells' words */
  KIND_STATE,                            /* board to coordinator: how far it is, report number `item`; words: struct report */
  KIND_BEAT,                             /* the coordinator's answer to report `item`; words: the chunks of the board's part that are there */
  KIND_END,                              /* coordinator to board: the run has ended with status `item` */
  KIND_BYE,                              /* the board's answer: struct report */
  KIND_JOIN,                             /* board to coordinator, of no run yet: it asks for its job; words: the chunks of it that are there */
  KIND_JOB                               /* the coordinator's answer, of no run yet: a chunk of a job of `item` words */
};

/* a packet of no run has this fingerprint and this run's number */
enum { NO_RUN = 0 };

/* A mask of chunks as two words, low word first. */
enum { MASK_LOW, MASK_HIGH, MASK_WORDS };
static inline uint64_t mask_of(const uint32_t *words) { return words[MASK_LOW] | (uint64_t)words[MASK_HIGH] << 32; }
static inline void mask_put(uint32_t *words, uint64_t mask) { words[MASK_LOW] = (uint32_t)mask, words[MASK_HIGH] = (uint32_t)(mask >> 32); }

/* What an asking has: is this board new, and has nothing of its sender? And the chunks of the message that are there. */
enum ask_word { ASK_NEW, ASK_MASK, ASK_WORDS = ASK_MASK + MASK_WORDS };

/* What all packets of a process have in common. */
struct envelope {
  uint64_t fingerprint, run, life;
  uint32_t from;
};

/* Posts the chunks of an item that are not in the mask. Returns how many they were. */
uint32_t post_item(struct net *net, const struct envelope *envelope, enum kind kind, uint32_t to, uint32_t item, const uint32_t *words, size_t length,
                   uint64_t there);

/* What came, read: a packet of a run from the address of the board that it says. */
struct letter {
  rolwyddac_packet_line line;
  uint32_t words[ROLWYDDAC_PACKET_WORDS];
};

/* Reads what came as a packet of a run for this node; the engine's number where it is none: 26 damaged, 27 stale, 11 not for this node. */
uint32_t post_read(const struct net *net, const struct envelope *envelope, const struct datagram *came, struct letter *out);

/* Counts what was turned away with that number. */
void post_count(struct net *net, uint32_t number);

#endif

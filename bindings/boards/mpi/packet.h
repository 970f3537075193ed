/* A packet: six words, and then words of its kind. The first is a check word (CRC-32) over the recipe, the route and the rest of the
 * packet: kind, run number, sending board, number and length, and the words. Words have the machine's byte order: the engine's archive is
 * for one architecture. */
#ifndef BOARDS_MPI_PACKET_H
#define BOARDS_MPI_PACKET_H

#include <stddef.h>
#include <stdint.h>

enum packet_kind {
  PACKET_MESSAGE = 1, /* the words of the message that its number names */
  PACKET_PART,        /* the board's own part of the memories, and its record: three words */
  PACKET_ALIVE,       /* the board is there */
  PACKET_FAREWELL,    /* its last packet: it has finished */
  PACKET_ENDED        /* its last packet: it has ended with the status that the number is, and the run with it */
};

/* Places of a packet's words; its own words begin at PACKET_HEADER. */
enum { PACKET_CHECK, PACKET_KIND, PACKET_RUN, PACKET_FROM, PACKET_NUMBER, PACKET_LENGTH, PACKET_HEADER };

struct packet {
  uint32_t kind, run, from, number;
  const uint32_t *words;
  size_t length;
};

/* What is the same in every packet of a run. */
struct packet_key {
  uint32_t recipe; /* the check so far: over recipe and route */
  uint32_t run;
};

struct packet_key packet_key(const uint8_t *recipe, size_t recipe_length, uint32_t route, uint32_t run);

/* The words of a packet with so many words of its own. */
static inline size_t packet_size(size_t length) { return PACKET_HEADER + length; }

/* Writes the packet, with its check word. The words may stand in their place already. */
void packet_write(uint32_t *to, const struct packet_key *key, const struct packet *packet);

enum packet_fault {
  PACKET_WHOLE,
  PACKET_CUT,     /* its bytes are not those that it says */
  PACKET_CORRUPT, /* its check word is not that of what came */
  PACKET_STALE    /* it is whole, but of another run */
};

/* Takes a packet apart as it came; out is written unless it is cut. */
enum packet_fault packet_read(const uint32_t *words, size_t bytes, const struct packet_key *key, struct packet *out);

#endif

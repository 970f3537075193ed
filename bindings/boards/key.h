/* A secret that all processes of a run have, by which packets are signed: HMAC-SHA256 of libsodium. A program that was built without libsodium has no keys. */
#ifndef BOARDS_KEY_H
#define BOARDS_KEY_H

#include <stdbool.h>
#include <stddef.h>
#include <stdint.h>

#include "status.h"

enum { KEY_BYTES = 32, TAG_BYTES = 32 };

struct key {
  bool there;
  uint8_t bytes[KEY_BYTES];
};

/* Reads the secret from a file that none but its owner may read. */
enum status key_read(struct key *out, const char *name);

/* The bytes that a key adds to a packet. */
static inline size_t key_length(const struct key *key) { return key->there ? TAG_BYTES : 0; }

/* Writes the tag of so many bytes behind them, where there is a key. */
void key_sign(const struct key *key, uint8_t *bytes, size_t length);

/* Is the tag behind so many bytes theirs? Without a key any packet is. */
bool key_signed(const struct key *key, const uint8_t *bytes, size_t length);

#endif

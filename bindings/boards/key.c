#define _POSIX_C_SOURCE 200809L
#include "key.h"

#include "tell.h"

#ifdef BOARDS_KEYS

#include <sodium.h>
#include <stdlib.h>
#include <sys/stat.h>

#include "file.h"

_Static_assert(KEY_BYTES == crypto_auth_hmacsha256_KEYBYTES && TAG_BYTES == crypto_auth_hmacsha256_BYTES, "the lengths of HMAC-SHA256");

enum status key_read(struct key *out, const char *name) {
  struct bytes secret = {0};
  struct stat about;
  if (sodium_init() < 0) return tell(STATUS_MACHINE, "libsodium does not start");
  enum status status = file_read(name, &secret);
  if (status == STATUS_DONE && (stat(name, &about) != 0 || (about.st_mode & 077) != 0)) status = tell(STATUS_FILE, "%s: others may read it", name);
  if (status == STATUS_DONE && secret.length < KEY_BYTES) status = tell(STATUS_FILE, "%s: a key has at least %d bytes", name, KEY_BYTES);
  /* of whatever length the secret is, the key is a hash of it */
  if (status == STATUS_DONE) crypto_generichash(out->bytes, KEY_BYTES, secret.at, secret.length, NULL, 0);
  out->there = status == STATUS_DONE;
  if (secret.at != NULL) sodium_memzero(secret.at, secret.length);
  free(secret.at);
  return status;
}

void key_sign(const struct key *key, uint8_t *bytes, size_t length) {
  if (key->there) crypto_auth_hmacsha256(bytes + length, bytes, length, key->bytes);
}

bool key_signed(const struct key *key, const uint8_t *bytes, size_t length) {
  return !key->there || crypto_auth_hmacsha256_verify(bytes + length, bytes, length, key->bytes) == 0;
}

#else

enum status key_read(struct key *out, const char *name) {
  (void)out;
  return tell(STATUS_USAGE, "--key %s: this program was built without libsodium, and has no keys", name);
}

void key_sign(const struct key *key, uint8_t *bytes, size_t length) { (void)key, (void)bytes, (void)length; }

bool key_signed(const struct key *key, const uint8_t *bytes, size_t length) { return (void)bytes, (void)length, !key->there; }

#endif

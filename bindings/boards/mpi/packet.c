#include "packet.h"

#include <string.h>

/* CRC-32 (reflected, 0xedb88320), a word at a time: tables[k][x] is what byte x leaves with k bytes of zero behind it */
static uint32_t tables[4][256];

static void make_tables(void) {
  for (uint32_t x = 0; x < 256; x++) {
    tables[0][x] = x;
    for (int bit = 0; bit < 8; bit++) tables[0][x] = tables[0][x] >> 1 ^ (tables[0][x] & 1 ? 0xedb88320 : 0);
  }
  for (int k = 1; k < 4; k++)
    for (uint32_t x = 0; x < 256; x++) tables[k][x] = tables[k - 1][x] >> 8 ^ tables[0][tables[k - 1][x] & 255];
}

static uint32_t over_bytes(uint32_t crc, const uint8_t *bytes, size_t length) {
  for (size_t i = 0; i < length; i++) crc = crc >> 8 ^ tables[0][(crc ^ bytes[i]) & 255];
  return crc;
}

static uint32_t over_words(uint32_t crc, const uint32_t *words, size_t length) {
  for (size_t i = 0; i < length; i++) {
    crc ^= words[i];
    crc = tables[3][crc & 255] ^ tables[2][crc >> 8 & 255] ^ tables[1][crc >> 16 & 255] ^ tables[0][crc >> 24];
  }
  return crc;
}

struct packet_key packet_key(const uint8_t *recipe, size_t recipe_length, uint32_t route, uint32_t run) {
  make_tables();
  return (struct packet_key){.recipe = over_words(over_bytes(~0u, recipe, recipe_length), &route, 1), .run = run};
}

static uint32_t check_word(const uint32_t *packet, size_t length, const struct packet_key *key) {
  return ~over_words(key->recipe, packet + PACKET_KIND, packet_size(length) - PACKET_KIND);
}

void packet_write(uint32_t *to, const struct packet_key *key, const struct packet *packet) {
  to[PACKET_KIND] = packet->kind;
  to[PACKET_RUN] = packet->run;
  to[PACKET_FROM] = packet->from;
  to[PACKET_NUMBER] = packet->number;
  to[PACKET_LENGTH] = (uint32_t)packet->length;
  if (packet->length > 0 && packet->words != to + PACKET_HEADER) memcpy(to + PACKET_HEADER, packet->words, packet->length * sizeof *to);
  to[PACKET_CHECK] = check_word(to, packet->length, key);
}

enum packet_fault packet_read(const uint32_t *words, size_t bytes, const struct packet_key *key, struct packet *out) {
  if (bytes < packet_size(0) * sizeof *words || bytes != packet_size(words[PACKET_LENGTH]) * sizeof *words) return PACKET_CUT;
  *out = (struct packet){
      .kind = words[PACKET_KIND],
      .run = words[PACKET_RUN],
      .from = words[PACKET_FROM],
      .number = words[PACKET_NUMBER],
      .words = words + PACKET_HEADER,
      .length = words[PACKET_LENGTH],
  };
  if (words[PACKET_CHECK] != check_word(words, out->length, key)) return PACKET_CORRUPT;
  return out->run == key->run ? PACKET_WHOLE : PACKET_STALE;
}

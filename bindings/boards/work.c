#include "work.h"

static uint32_t half(const uint8_t *bytes) { return bytes[0] + 256u * bytes[1]; }

uint32_t work_cells(const struct plan *plan) {
  uint32_t cells = 1;
  /* the dimensions stand first: length and tile length are the record's second and third two bytes */
  for (const uint8_t *record = plan->recipe; record[0] == 1; record += ROLWYDDAC_RECORD_BYTES) {
    const uint32_t length = half(record + 2), tile = half(record + 4);
    cells *= tile < length ? tile : length;
  }
  return cells;
}

void work_on(uint32_t cells, uint32_t rounds) {
  static volatile uint32_t outcome;
  uint32_t word = outcome;
  for (uint32_t c = 0; c < cells; c++)
    for (uint32_t r = 0; r < rounds; r++) word = (word ^ word >> 15) * 0x2c1b3c6du + 1;
  outcome = word;
}

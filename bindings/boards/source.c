#include "source.h"

#include <inttypes.h>
#include <stdlib.h>

#include "file.h"
#include "tell.h"

/* words of four bytes, low byte first */
static enum status read_words(const char *name, uint32_t *out, uint32_t cells) {
  struct bytes file;
  enum status status = file_read(name, &file);
  if (status == STATUS_DONE && file.length != 4 * (size_t)cells)
    status = tell(STATUS_FILE, "%s has %zu bytes: a source of %" PRIu32 " cells has %zu", name, file.length, cells, 4 * (size_t)cells);
  for (uint32_t c = 0; c < cells && status == STATUS_DONE; c++) {
    const uint8_t *word = file.at + 4 * (size_t)c;
    out[c] = (uint32_t)word[0] | (uint32_t)word[1] << 8 | (uint32_t)word[2] << 16 | (uint32_t)word[3] << 24;
  }
  free(file.at);
  return status;
}

/* SplitMix64, the upper half of each number */
static void make_words(uint32_t seed, uint32_t *out, uint32_t cells) {
  uint64_t state = seed;
  for (uint32_t c = 0; c < cells; c++) {
    uint64_t mixed = state += 0x9e3779b97f4a7c15;
    mixed = (mixed ^ mixed >> 30) * 0xbf58476d1ce4e5b9;
    mixed = (mixed ^ mixed >> 27) * 0x94d049bb133111eb;
    out[c] = (uint32_t)((mixed ^ mixed >> 31) >> 32);
  }
}

enum status source_read(const struct plan *plan, const struct options *options, uint32_t *out) {
  if (options->source != NULL) return read_words(options->source, out, plan_cells(plan));
  make_words(options->seed, out, plan_cells(plan));
  return STATUS_DONE;
}

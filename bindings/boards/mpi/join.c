#include "join.h"

#include <string.h>

enum { RECORD_LENGTH = 3 };

size_t join_length(const struct plan *plan) { return plan->sizes.source + RECORD_LENGTH; }

void join_write(const struct areas *areas, uint32_t board, uint32_t *words) {
  const size_t cells = areas->plan->sizes.source;
  const rolwyddac_progress *record = areas->progress + board;
  memcpy(words, areas_part(areas, board), cells * sizeof *words);
  words[cells] = record->finished;
  words[cells + 1] = record->stage;
  words[cells + 2] = record->sent;
}

void join_put(struct areas *joined, uint32_t board, const uint32_t *words) {
  const size_t cells = joined->plan->sizes.source;
  memcpy(areas_part(joined, board), words, cells * sizeof *words);
  joined->progress[board] = (rolwyddac_progress){words[cells], words[cells + 1], words[cells + 2]};
}

void join_own(struct areas *joined, const struct areas *own, uint32_t board) {
  memcpy(areas_part(joined, board), areas_part(own, board), own->plan->sizes.source * sizeof *own->memories);
  joined->progress[board] = own->progress[board];
}

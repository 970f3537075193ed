#include "part.h"

#include "tell.h"

/* places of a part's words: then one for each own cell, in index order */
enum { FINISHED, STAGE, SENT, CELLS };

size_t part_length(const struct job *job, uint32_t board) { return CELLS + job_cells(job, board); }

void part_write(const struct job *job, const struct areas *areas, uint32_t board, uint32_t *words) {
  const rolwyddac_progress *record = areas->progress + board;
  const uint32_t *memory = areas_part(areas, board);
  words[FINISHED] = record->finished, words[STAGE] = record->stage, words[SENT] = record->sent;
  uint32_t *next = words + CELLS;
  for (uint32_t c = 0; c < plan_cells(&job->plan); c++)
    if (job->owners[c] == board) *next++ = memory[c];
}

static void join(const struct job *job, struct areas *joined, uint32_t board, const uint32_t *words) {
  uint32_t *memory = areas_part(joined, board);
  joined->progress[board] = (rolwyddac_progress){words[FINISHED], words[STAGE], words[SENT]};
  const uint32_t *next = words + CELLS;
  for (uint32_t c = 0; c < plan_cells(&job->plan); c++)
    if (job->owners[c] == board) memory[c] = *next++;
}

enum status parts_collect(const struct job *job, const uint32_t *const *parts, uint32_t *grid) {
  struct areas joined;
  enum status status = areas_make(&joined, &job->plan, job->source);
  for (uint32_t b = 0; b < plan_boards(&job->plan) && status == STATUS_DONE; b++) join(job, &joined, b, parts[b]);
  if (status == STATUS_DONE) {
    const uint32_t number = areas_collect(&joined, grid);
    if (number != ROLWYDDAC_DONE) status = tell_refusal("collecting", number);
  }
  areas_free(&joined);
  return status;
}

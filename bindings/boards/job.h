/* What is to be done. The coordinator reads it from its files; a board that it started is its copy and has it too; any other board is handed its share,
 * as words. */
#ifndef BOARDS_JOB_H
#define BOARDS_JOB_H

#include <stdbool.h>
#include <stdint.h>

#include "file.h"
#include "options.h"
#include "rolwyddac.h"
#include "plan.h"
#include "status.h"

struct job {
  struct bytes recipe;
  struct plan plan;
  uint32_t *source; /* one word a cell; of a board that was handed it only its own cells' words are there */
  uint32_t *owners; /* one word a cell: its board */
  uint64_t fingerprint;
  uint64_t run; /* made of the source: where it is the same, so are all words of all messages */
  double timeout;
  uint32_t work;
};

enum { MOST_JOB = ROLWYDDAC_MOST_CHUNKS * ROLWYDDAC_PACKET_WORDS };

/* Reads the job. What is wrong is told. job_free is called in any case. */
enum status job_read(struct job *out, const struct options *options);

/* Writes a board's share as words, at most MOST_JOB, and returns how many. `again`: the board had it before. */
uint32_t job_words(const struct job *job, uint32_t board, bool again, uint32_t *words);

/* Are the words one share, and not put together from those of two runs? */
bool job_holds(const uint32_t *words, uint32_t length);

/* Makes a job of the words that a board was handed, whatever they are. */
enum status job_take(struct job *out, uint32_t board, const uint32_t *words, uint32_t length, bool *again);

/* How many cells a board has. */
uint32_t job_cells(const struct job *job, uint32_t board);

void job_free(struct job *job);

#endif

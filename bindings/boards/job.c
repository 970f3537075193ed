#include "job.h"

#include <stdlib.h>
#include <string.h>

#include "source.h"
#include "tell.h"

/* places of a share's words: then the recipe's bytes, four a word, and the source's words at the board's own cells */
enum { CHECK_LOW, CHECK_HIGH, CHECKED, ROUTE = CHECKED, MILLISECONDS, WORK, AGAIN, RUN_LOW, RUN_HIGH, RECIPE_BYTES, SHARE };

/* the plan of the recipe that is there, and room for the source */
static enum status make(struct job *job, uint32_t route) {
  const enum status status = plan_make(&job->plan, job->recipe.at, job->recipe.length, route);
  if (status != STATUS_DONE) return status;
  const uint32_t cells = plan_cells(&job->plan);
  job->source = calloc(cells, sizeof *job->source);
  job->owners = calloc(cells, sizeof *job->owners);
  if (job->source == NULL || job->owners == NULL) return tell_no_memory();
  job->fingerprint = rolwyddac_fingerprint(job->recipe.at, job->recipe.length, route).fingerprint;
  const uint32_t number = rolwyddac_owners(job->recipe.at, job->recipe.length, job->owners, cells);
  return number == ROLWYDDAC_DONE ? STATUS_DONE : tell_refusal("owners", number);
}

enum status job_read(struct job *out, const struct options *options) {
  *out = (struct job){.timeout = options->timeout, .work = options->work};
  enum status status = file_read(options->recipe, &out->recipe);
  if (status == STATUS_DONE) status = make(out, options->route);
  if (status == STATUS_DONE) status = source_read(&out->plan, options, out->source);
  if (status != STATUS_DONE) return status;
  /* the words as this machine has them: the engine's archive is for one architecture */
  out->run = rolwyddac_fingerprint((const uint8_t *)out->source, plan_cells(&out->plan) * sizeof *out->source, options->run).fingerprint;
  return STATUS_DONE;
}

/* of all words behind it */
static uint64_t check_of(const uint32_t *words, uint32_t length) {
  return rolwyddac_fingerprint((const uint8_t *)(words + CHECKED), (length - CHECKED) * sizeof *words, 0).fingerprint;
}

bool job_holds(const uint32_t *words, uint32_t length) {
  return length >= SHARE && check_of(words, length) == (words[CHECK_LOW] | (uint64_t)words[CHECK_HIGH] << 32);
}

uint32_t job_words(const struct job *job, uint32_t board, bool again, uint32_t *words) {
  const uint32_t bytes = (uint32_t)job->recipe.length, recipe = (bytes + 3) / 4;
  words[ROUTE] = job->plan.route, words[MILLISECONDS] = (uint32_t)(1000 * job->timeout), words[WORK] = job->work, words[AGAIN] = again;
  words[RUN_LOW] = (uint32_t)job->run, words[RUN_HIGH] = (uint32_t)(job->run >> 32), words[RECIPE_BYTES] = bytes;
  memset(words + SHARE, 0, recipe * sizeof *words);
  memcpy(words + SHARE, job->recipe.at, bytes);
  uint32_t length = SHARE + recipe;
  for (uint32_t c = 0; c < plan_cells(&job->plan); c++)
    if (job->owners[c] == board) words[length++] = job->source[c];
  const uint64_t check = check_of(words, length);
  words[CHECK_LOW] = (uint32_t)check, words[CHECK_HIGH] = (uint32_t)(check >> 32);
  return length;
}

/* the source's words at the board's own cells; are there as many as it has? */
static bool take_source(struct job *job, uint32_t board, const uint32_t *words, uint32_t length) {
  uint32_t taken = 0;
  for (uint32_t c = 0; c < plan_cells(&job->plan); c++) {
    if (job->owners[c] != board) continue;
    if (taken == length) return false;
    job->source[c] = words[taken++];
  }
  return taken == length;
}

enum status job_take(struct job *out, uint32_t board, const uint32_t *words, uint32_t length, bool *again) {
  *out = (struct job){0};
  const uint32_t bytes = length < SHARE ? 0 : words[RECIPE_BYTES], start = SHARE + (bytes + 3) / 4;
  if (length < SHARE || bytes > ROLWYDDAC_MOST_RECIPE_BYTES || length < start) return tell(STATUS_DAMAGED, "a job that is none");
  out->recipe = (struct bytes){.at = malloc(bytes + 1), .length = bytes};
  if (out->recipe.at == NULL) return tell_no_memory();
  memcpy(out->recipe.at, words + SHARE, bytes);
  const enum status status = make(out, words[ROUTE]);
  if (status != STATUS_DONE) return status;
  out->run = words[RUN_LOW] | (uint64_t)words[RUN_HIGH] << 32;
  out->timeout = words[MILLISECONDS] / 1e3, out->work = words[WORK], *again = words[AGAIN] != 0;
  const bool its = board < plan_boards(&out->plan) && take_source(out, board, words + start, length - start);
  return its ? STATUS_DONE : tell(STATUS_DAMAGED, "a job that is not for this board");
}

uint32_t job_cells(const struct job *job, uint32_t board) {
  uint32_t cells = 0;
  for (uint32_t c = 0; c < plan_cells(&job->plan); c++) cells += job->owners[c] == board;
  return cells;
}

void job_free(struct job *job) {
  plan_free(&job->plan);
  free(job->recipe.at);
  free(job->source);
  free(job->owners);
}

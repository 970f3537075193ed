/* A run that owns its areas, over the calls. Nothing here reads or writes a word of an area but by a call, a save or a load. */
#include "rolwyddac_run.h"

#include <stdbool.h>
#include <stdlib.h>
#include <string.h>

/* the four areas that a run changes */
struct areas {
  uint32_t *memories, *buffer;
  rolwyddac_progress *progress;
  uint8_t *status;
};

struct rolwyddac_run {
  uint8_t *encoded;
  size_t encoded_length;
  uint32_t route;
  uint32_t *source;
  rolwyddac_areas sizes;
  struct areas areas;
};

/* what every call of a run is given first */
#define LENT(run, areas)                                                                                                               \
  (run)->encoded, (run)->encoded_length, (run)->route, (run)->source, (run)->sizes.source, (areas)->memories, (run)->sizes.memories, \
      (areas)->buffer, (run)->sizes.buffer, (areas)->progress, (run)->sizes.progress, (areas)->status, (run)->sizes.status

uint32_t rolwyddac_encode(const rolwyddac_fields *f, uint8_t space[ROLWYDDAC_MOST_RECIPE_BYTES], size_t *length) {
  if (f->dimensions > ROLWYDDAC_MOST_DIMENSIONS || f->distances > ROLWYDDAC_MOST_DISTANCES || f->bounds > ROLWYDDAC_MOST_BOUNDS)
    return ROLWYDDAC_STRAY_RECORD;
  const size_t bytes = ROLWYDDAC_RECORD_BYTES * ((size_t)f->dimensions + f->distances + f->bounds + 1);
  const uint32_t number =
      rolwyddac_write(f->lengths, f->dimensions, f->tiling, f->dimensions, f->counts, f->dimensions, f->components,
                      ROLWYDDAC_COMPONENTS * (size_t)f->distances, f->weights, f->distances, f->sides, f->bounds, f->bounded, f->bounds,
                      f->earlier, f->bounds, f->slopes, f->bounds, f->offsets, f->bounds, f->shift, f->boundary, space, bytes);
  if (number == ROLWYDDAC_DONE) *length = bytes;
  return number;
}

static void free_areas(struct areas *areas) {
  free(areas->memories);
  free(areas->buffer);
  free(areas->progress);
  free(areas->status);
}

/* one element more than needed: no pointer is null where a plan has no message; at false nothing is kept */
static bool make_areas(struct areas *out, const rolwyddac_areas *sizes) {
  *out = (struct areas){
      .memories = calloc(sizes->memories + 1, sizeof *out->memories),
      .buffer = calloc(sizes->buffer + 1, sizeof *out->buffer),
      .progress = calloc(sizes->progress + 1, sizeof *out->progress),
      .status = calloc(sizes->status + 1, sizeof *out->status),
  };
  if (out->memories != NULL && out->buffer != NULL && out->progress != NULL && out->status != NULL) return true;
  free_areas(out);
  *out = (struct areas){0};
  return false;
}

void rolwyddac_run_free(rolwyddac_run *run) {
  if (run == NULL) return;
  free_areas(&run->areas);
  free(run->encoded);
  free(run->source);
  free(run);
}

/* copies of recipe and source, and the areas; the source is as long as the plan says */
static bool own(rolwyddac_run *run, const uint8_t *encoded, size_t encoded_length, const uint32_t *source) {
  run->encoded = malloc(encoded_length);
  run->source = malloc(run->sizes.source * sizeof *run->source);
  if (run->encoded == NULL || run->source == NULL || !make_areas(&run->areas, &run->sizes)) return false;
  memcpy(run->encoded, encoded, encoded_length);
  memcpy(run->source, source, run->sizes.source * sizeof *run->source);
  run->encoded_length = encoded_length;
  return true;
}

uint32_t rolwyddac_run_make(const uint8_t *encoded, size_t encoded_length, uint32_t route, const uint32_t *source,
                            size_t source_length, rolwyddac_run **run) {
  rolwyddac_areas sizes;
  *run = NULL;
  uint32_t number = rolwyddac_sizes(encoded, encoded_length, route, &sizes);
  if (number != ROLWYDDAC_DONE) return number;
  if (source_length != sizes.source) return ROLWYDDAC_AREA;
  rolwyddac_run *made = calloc(1, sizeof *made);
  if (made == NULL) return ROLWYDDAC_NO_MEMORY;
  made->route = route == ROLWYDDAC_DIRECT ? ROLWYDDAC_DIRECT : ROLWYDDAC_INDIRECT;
  made->sizes = sizes;
  number = own(made, encoded, encoded_length, source) ? rolwyddac_fresh(LENT(made, &made->areas)) : ROLWYDDAC_NO_MEMORY;
  if (number == ROLWYDDAC_DONE) *run = made;
  else rolwyddac_run_free(made);
  return number;
}

uint32_t rolwyddac_run_turn(rolwyddac_run *run, uint32_t processor) { return rolwyddac_turn(LENT(run, &run->areas), processor); }

uint32_t rolwyddac_run_deliver(rolwyddac_run *run, uint32_t message) { return rolwyddac_deliver(LENT(run, &run->areas), message); }

uint32_t rolwyddac_run_collect(const rolwyddac_run *run, uint32_t *grid, size_t grid_length) {
  return rolwyddac_collect(LENT(run, &run->areas), grid, grid_length);
}

rolwyddac_areas rolwyddac_run_sizes(const rolwyddac_run *run) { return run->sizes; }
const rolwyddac_progress *rolwyddac_run_progress(const rolwyddac_run *run) { return run->areas.progress; }
const uint8_t *rolwyddac_run_status(const rolwyddac_run *run) { return run->areas.status; }

/* each processor takes turns until it waits or has finished; told is whether any was taken */
static uint32_t take_turns(rolwyddac_run *run, bool *told) {
  for (uint32_t processor = 0; processor < run->sizes.progress; processor++) {
    uint32_t number;
    while ((number = rolwyddac_run_turn(run, processor)) == ROLWYDDAC_DONE) *told = true;
    if (number != ROLWYDDAC_WAITING && number != ROLWYDDAC_FINISHED) return number;
  }
  return ROLWYDDAC_DONE;
}

static uint32_t deliver_all(rolwyddac_run *run, bool *told) {
  enum { IN_FLIGHT = 1 };
  for (uint32_t message = 0; message < run->sizes.status; message++) {
    if (run->areas.status[message] != IN_FLIGHT) continue;
    const uint32_t number = rolwyddac_run_deliver(run, message);
    if (number != ROLWYDDAC_DONE) return number;
    *told = true;
  }
  return ROLWYDDAC_DONE;
}

uint32_t rolwyddac_run_finish(rolwyddac_run *run) {
  for (bool more = true; more;) {
    more = false;
    uint32_t number = take_turns(run, &more);
    if (number == ROLWYDDAC_DONE) number = deliver_all(run, &more);
    if (number != ROLWYDDAC_DONE) return number;
  }
  return ROLWYDDAC_DONE;
}

/* ---- saved runs: mark, version, route and the lengths, then recipe, source and areas, then a check word */

static const uint8_t mark[8] = {'R', 'O', 'L', 'W', 'Y', 'R', 'U', 'N'};
enum { VERSION = 1, WORD = 4, HEAD_WORDS = 8, RECORD_WORDS = 3 };

static size_t saved_words(const rolwyddac_areas *sizes) {
  return sizes->source + sizes->memories + sizes->buffer + RECORD_WORDS * sizes->progress;
}

size_t rolwyddac_run_saved_length(const rolwyddac_run *run) {
  return sizeof mark + WORD * HEAD_WORDS + run->encoded_length + WORD * saved_words(&run->sizes) + run->sizes.status + WORD;
}

/* FNV-1a: a change of one byte always changes it */
static uint32_t check_word(const uint8_t *bytes, size_t length) {
  uint32_t sum = 2166136261u;
  for (size_t k = 0; k < length; k++) sum = (sum ^ bytes[k]) * 16777619u;
  return sum;
}

static uint8_t *put_bytes(uint8_t *at, const uint8_t *bytes, size_t count) {
  if (count > 0) memcpy(at, bytes, count);
  return at + count;
}

static uint8_t *put_word(uint8_t *at, uint32_t word) {
  for (int k = 0; k < WORD; k++) at[k] = (uint8_t)(word >> 8 * k & 255);
  return at + WORD;
}

static uint8_t *put_words(uint8_t *at, const uint32_t *words, size_t count) {
  for (size_t k = 0; k < count; k++) at = put_word(at, words[k]);
  return at;
}

static uint32_t word_at(const uint8_t *at) {
  return (uint32_t)at[0] | (uint32_t)at[1] << 8 | (uint32_t)at[2] << 16 | (uint32_t)at[3] << 24;
}

static const uint8_t *get_words(const uint8_t *at, uint32_t *words, size_t count) {
  for (size_t k = 0; k < count; k++) words[k] = word_at(at + WORD * k);
  return at + WORD * count;
}

/* the words behind the mark */
static void head_of(const rolwyddac_run *run, uint32_t head[HEAD_WORDS]) {
  const rolwyddac_areas *sizes = &run->sizes;
  const size_t words[HEAD_WORDS] = {VERSION,         run->route,    run->encoded_length, sizes->source,
                                    sizes->memories, sizes->buffer, sizes->progress,     sizes->status};
  for (int k = 0; k < HEAD_WORDS; k++) head[k] = (uint32_t)words[k];
}

uint32_t rolwyddac_run_save(const rolwyddac_run *run, uint8_t *space, size_t space_length) {
  const rolwyddac_areas *sizes = &run->sizes;
  uint32_t head[HEAD_WORDS];
  if (space_length != rolwyddac_run_saved_length(run)) return ROLWYDDAC_AREA;
  head_of(run, head);
  uint8_t *at = put_words(put_bytes(space, mark, sizeof mark), head, HEAD_WORDS);
  at = put_bytes(at, run->encoded, run->encoded_length);
  at = put_words(at, run->source, sizes->source);
  at = put_words(at, run->areas.memories, sizes->memories);
  at = put_words(at, run->areas.buffer, sizes->buffer);
  for (size_t p = 0; p < sizes->progress; p++) {
    const rolwyddac_progress *record = &run->areas.progress[p];
    at = put_word(put_word(put_word(at, record->finished), record->stage), record->sent);
  }
  at = put_bytes(at, run->areas.status, sizes->status);
  put_word(at, check_word(space, (size_t)(at - space)));
  return ROLWYDDAC_DONE;
}

static bool are_words(const uint8_t *at, const uint32_t *words, size_t count) {
  for (size_t k = 0; k < count; k++)
    if (word_at(at + WORD * k) != words[k]) return false;
  return true;
}

/* where the areas begin in a saved run of this recipe, route and source; null where it is none, or cut or damaged */
static const uint8_t *areas_in(const rolwyddac_run *run, const uint8_t *saved, size_t length) {
  uint32_t head[HEAD_WORDS];
  if (length != rolwyddac_run_saved_length(run) || check_word(saved, length - WORD) != word_at(saved + length - WORD)) return NULL;
  head_of(run, head);
  if (memcmp(saved, mark, sizeof mark) != 0 || !are_words(saved + sizeof mark, head, HEAD_WORDS)) return NULL;
  const uint8_t *recipe = saved + sizeof mark + WORD * HEAD_WORDS, *source = recipe + run->encoded_length;
  if (memcmp(recipe, run->encoded, run->encoded_length) != 0 || !are_words(source, run->source, run->sizes.source)) return NULL;
  return source + WORD * run->sizes.source;
}

static void get_areas(struct areas *out, const rolwyddac_areas *sizes, const uint8_t *at) {
  at = get_words(at, out->memories, sizes->memories);
  at = get_words(at, out->buffer, sizes->buffer);
  for (size_t p = 0; p < sizes->progress; p++) {
    uint32_t words[RECORD_WORDS];
    at = get_words(at, words, RECORD_WORDS);
    out->progress[p] = (rolwyddac_progress){words[0], words[1], words[2]};
  }
  if (sizes->status > 0) memcpy(out->status, at, sizes->status);
}

uint32_t rolwyddac_run_load(rolwyddac_run *run, const uint8_t *saved, size_t saved_length) {
  const uint8_t *at = areas_in(run, saved, saved_length);
  if (at == NULL) return ROLWYDDAC_NO_SAVED_RUN;
  struct areas loaded;
  if (!make_areas(&loaded, &run->sizes)) return ROLWYDDAC_NO_MEMORY;
  get_areas(&loaded, &run->sizes, at);
  /* a delivery tests lengths and fitness before the message's number, and no plan has this one */
  const uint32_t number = rolwyddac_deliver(LENT(run, &loaded), UINT32_MAX);
  if (number != ROLWYDDAC_NO_SUCH) {
    free_areas(&loaded);
    return number;
  }
  free_areas(&run->areas);
  run->areas = loaded;
  return ROLWYDDAC_DONE;
}

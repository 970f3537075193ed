/* The handle of rolwyddac_run.h: whole runs, runs saved at every step and loaded again, bytes that are no saved run, no memory at each
 * place where some is asked for. Its source is compiled here with an allocator that can fail and counts what is not freed. */
#include <inttypes.h>
#include <stdio.h>
#include <stdlib.h>
#include <string.h>

static size_t live, asked, failing;

/* the allocation number `failing` fails, 0 for none */
static void *allocated(void *made) {
  if (++asked == failing) {
    free(made);
    return NULL;
  }
  live += made != NULL;
  return made;
}

static void freed(void *made) {
  live -= made != NULL;
  free(made);
}

static void *allocate(size_t bytes) { return allocated(malloc(bytes)); }
static void *allocate_zeros(size_t count, size_t bytes) { return allocated(calloc(count, bytes)); }

#define malloc allocate
#define calloc allocate_zeros
#define free freed
#include "rolwyddac_run.c"
#undef malloc
#undef calloc
#undef free

enum { MOST_CELLS = 64, MOST_SAVED = 4096 };

static const rolwyddac_fields row_a = {.dimensions = 2, .lengths = {8, 8}, .tiling = {2, 2}, .counts = {2, 0}, .distances = 3,
                                       .components = {1, 0, 0, 0, 0, 1, 0, 0, 1, 1, 0, 0}, .weights = {1, 1, 1}};
static const rolwyddac_fields row_d = {.dimensions = 2, .lengths = {4, 1}, .tiling = {2, 1}, .counts = {2, 0}, .distances = 1,
                                       .components = {1}, .weights = {1}};
/* no message */
static const rolwyddac_fields alone = {.dimensions = 2, .lengths = {1, 2}, .tiling = {2, 1}, .counts = {2, 0}, .distances = 1,
                                       .components = {1}, .weights = {1}, .boundary = 5};
/* two spread dimensions, and messages round a corner */
static const rolwyddac_fields corners = {.dimensions = 3, .lengths = {4, 4, 3}, .tiling = {2, 2, 2}, .counts = {2, 2, 0}, .distances = 3,
                                         .components = {1, 1, 0, 0, 1, 0, 1, 0, 0, 1, 0, 0}, .weights = {3, 1, 2}, .shift = 1, .boundary = 9};
/* a triangle, direct passing alone */
static const rolwyddac_fields triangle = {.dimensions = 2, .lengths = {6, 6}, .tiling = {2, 2}, .counts = {3, 0}, .distances = 2,
                                          .components = {1, 1, 0, 0, 0, 1, 0, 0}, .weights = {1, 2}, .boundary = 7, .bounds = 1,
                                          .bounded = {1}, .slopes = {1}};

static uint8_t recipe[ROLWYDDAC_MOST_RECIPE_BYTES];
static size_t recipe_length;
static uint32_t source[MOST_CELLS], route;
static size_t cells;

static void must(int holds, const char *what) {
  if (holds) return;
  printf("%s: not so\n", what);
  exit(1);
}

/* takes a recipe, and a source of words that are not all alike */
static void take(const rolwyddac_fields *fields, uint32_t by) {
  must(rolwyddac_encode(fields, recipe, &recipe_length) == 0, "a recipe");
  cells = 1, route = by;
  for (uint32_t d = 0; d < fields->dimensions; d++) cells *= fields->lengths[d];
  for (size_t c = 0; c < cells; c++) source[c] = (uint32_t)(1 + 3 * c % 7);
}

static rolwyddac_run *made(void) {
  rolwyddac_run *run;
  must(rolwyddac_run_make(recipe, recipe_length, route, source, cells, &run) == 0 && run != NULL, "a run is made");
  return run;
}

static void must_be_swept(const rolwyddac_run *run) {
  uint32_t grid[MOST_CELLS], swept[MOST_CELLS];
  must(rolwyddac_run_collect(run, grid, cells) == 0, "it is collected");
  must(rolwyddac_sweep(recipe, recipe_length, source, cells, swept, cells) == 0, "the sweep");
  must(memcmp(grid, swept, cells * sizeof *grid) == 0, "the grid is the sweep's");
  must(rolwyddac_run_collect(run, grid, cells - 1) == ROLWYDDAC_AREA, "a grid of another length");
}

static size_t saved_in(const rolwyddac_run *run, uint8_t *space) {
  const size_t length = rolwyddac_run_saved_length(run);
  must(length <= MOST_SAVED, "the room of this test");
  must(rolwyddac_run_save(run, space, length - 1) == ROLWYDDAC_AREA && rolwyddac_run_save(run, space, length + 1) == ROLWYDDAC_AREA,
       "a space of another length");
  must(rolwyddac_run_save(run, space, length) == 0, "it is saved");
  return length;
}

/* loaded into a run that was only made, and into one that has finished, it goes on to the same grid */
static void goes_on(const rolwyddac_run *run) {
  uint8_t saved[MOST_SAVED], again[MOST_SAVED];
  const size_t length = saved_in(run, saved);
  for (int finished = 0; finished < 2; finished++) {
    rolwyddac_run *other = made();
    if (finished) must(rolwyddac_run_finish(other) == 0, "it finishes");
    must(rolwyddac_run_load(other, saved, length) == 0, "it is loaded");
    must(saved_in(other, again) == length && memcmp(saved, again, length) == 0, "what is loaded is what was saved");
    must(rolwyddac_run_finish(other) == 0, "it goes on");
    must_be_swept(other);
    rolwyddac_run_free(other);
  }
}

/* step by step, the last processor first, saved and loaded after each step */
static void run_by_steps(void) {
  rolwyddac_run *run = made();
  const rolwyddac_areas sizes = rolwyddac_run_sizes(run);
  uint32_t grid[MOST_CELLS];
  must(rolwyddac_run_collect(run, grid, cells) == ROLWYDDAC_EARLY, "collecting early");
  must(rolwyddac_run_turn(run, (uint32_t)sizes.progress) == ROLWYDDAC_NO_SUCH, "no such processor");
  must(rolwyddac_run_deliver(run, (uint32_t)sizes.status) == ROLWYDDAC_NO_SUCH, "no such message");
  for (size_t steps = 1; steps > 0;) {
    steps = 0;
    for (uint32_t p = (uint32_t)sizes.progress; p-- > 0;)
      while (rolwyddac_run_turn(run, p) == 0) steps++, goes_on(run);
    for (uint32_t m = (uint32_t)sizes.status; m-- > 0;)
      if (rolwyddac_run_status(run)[m] == 1) must(rolwyddac_run_deliver(run, m) == 0, "a delivery"), steps++, goes_on(run);
  }
  must(sizes.status == 0 || rolwyddac_run_deliver(run, 0) == ROLWYDDAC_NO_MAIL, "no mail");
  must(rolwyddac_run_progress(run)[0].finished > 0 && rolwyddac_run_turn(run, 0) == ROLWYDDAC_FINISHED, "it has finished");
  must_be_swept(run);
  rolwyddac_run_free(run);
}

/* the check word of bytes that were changed on purpose */
static void seal(uint8_t *saved, size_t length) { put_word(saved + length - WORD, check_word(saved, length - WORD)); }

/* the run is as before: it was saved as these bytes */
static void is_as_before(const rolwyddac_run *run, const uint8_t *before, size_t length) {
  uint8_t now[MOST_SAVED];
  must(saved_in(run, now) == length && memcmp(now, before, length) == 0, "after a refusal the run is as before");
}

static void no_saved_runs(void) {
  uint8_t saved[MOST_SAVED], changed[MOST_SAVED + 1] = {0};
  rolwyddac_run *run = made();
  must(rolwyddac_run_turn(run, 0) == 0 && rolwyddac_run_turn(run, 0) == 0, "two turns");
  const size_t length = saved_in(run, saved);
  memcpy(changed, saved, length);
  for (size_t cut = 0; cut <= length + 1; cut++)
    if (cut != length) must(rolwyddac_run_load(run, changed, cut) == ROLWYDDAC_NO_SAVED_RUN, "cut, or longer");
  for (size_t k = 0; k < length; k++) {
    changed[k] ^= 64;
    must(rolwyddac_run_load(run, changed, length) == ROLWYDDAC_NO_SAVED_RUN, "a byte that was changed");
    changed[k] ^= 64;
  }
  /* the same with a right check word: mark, version, route, lengths, recipe and source count */
  const size_t areas = sizeof mark + WORD * HEAD_WORDS + recipe_length + WORD * cells;
  for (size_t k = 0; k < areas; k++) {
    changed[k] ^= 1;
    seal(changed, length);
    must(rolwyddac_run_load(run, changed, length) == ROLWYDDAC_NO_SAVED_RUN, "another run's front");
    changed[k] ^= 1;
  }
  /* a stage that there is not, and a status byte that there is not */
  const rolwyddac_areas sizes = rolwyddac_run_sizes(run);
  const size_t records = areas + WORD * (sizes.memories + sizes.buffer), marks = records + WORD * RECORD_WORDS * sizes.progress;
  changed[records + WORD] = 9, seal(changed, length);
  must(rolwyddac_run_load(run, changed, length) == ROLWYDDAC_UNFIT, "a record that is not fit");
  memcpy(changed, saved, length);
  changed[marks] = 4, seal(changed, length);
  must(rolwyddac_run_load(run, changed, length) == ROLWYDDAC_UNFIT, "a status that is not fit");
  is_as_before(run, saved, length);
  rolwyddac_run_free(run);
}

/* of row D on either route, and of another source */
static void of_another_run(void) {
  uint8_t saved[MOST_SAVED];
  take(&row_d, ROLWYDDAC_DIRECT);
  rolwyddac_run *run = made();
  const size_t length = saved_in(run, saved);
  rolwyddac_run_free(run);
  route = ROLWYDDAC_INDIRECT, run = made();
  must(rolwyddac_run_saved_length(run) == length, "both routes of row D have the same lengths");
  must(rolwyddac_run_load(run, saved, length) == ROLWYDDAC_NO_SAVED_RUN, "another route");
  rolwyddac_run_free(run);
  route = ROLWYDDAC_DIRECT, source[3]++, run = made();
  must(rolwyddac_run_load(run, saved, length) == ROLWYDDAC_NO_SAVED_RUN, "another source");
  rolwyddac_run_free(run);
  source[3]--, run = made();
  must(rolwyddac_run_load(run, saved, length) == 0, "the same again");
  rolwyddac_run_free(run);
  /* every word but 0 is the indirect route */
  route = ROLWYDDAC_INDIRECT, run = made(), saved_in(run, saved), rolwyddac_run_free(run);
  route = 77, run = made();
  must(rolwyddac_run_load(run, saved, length) == 0, "the same route by another word");
  rolwyddac_run_free(run);
}

static void no_runs(void) {
  rolwyddac_run *run = (rolwyddac_run *)recipe;
  take(&row_d, ROLWYDDAC_DIRECT);
  must(rolwyddac_run_make(recipe, recipe_length - 1, route, source, cells, &run) == ROLWYDDAC_RAGGED && run == NULL, "a ragged recipe");
  must(rolwyddac_run_make(recipe, recipe_length, route, source, cells + 1, &run) == ROLWYDDAC_AREA && run == NULL, "a long source");
  take(&triangle, ROLWYDDAC_INDIRECT);
  must(rolwyddac_run_make(recipe, recipe_length, route, source, cells, &run) == ROLWYDDAC_DIRECT_ONLY && run == NULL, "direct passing alone");
  rolwyddac_run_free(NULL);
  rolwyddac_fields many = row_d;
  size_t length = 77;
  many.dimensions = 5, must(rolwyddac_encode(&many, recipe, &length) == ROLWYDDAC_STRAY_RECORD, "five dimensions");
  many = row_d, many.distances = 9, must(rolwyddac_encode(&many, recipe, &length) == ROLWYDDAC_STRAY_RECORD, "nine distances");
  many = row_d, many.bounds = UINT32_MAX, must(rolwyddac_encode(&many, recipe, &length) == ROLWYDDAC_STRAY_RECORD, "too many bounds");
  many = row_d, many.tiling[0] = 0, must(rolwyddac_encode(&many, recipe, &length) == ROLWYDDAC_TILE && length == 77, "no tile");
  must(strcmp(rolwyddac_term(ROLWYDDAC_NO_MEMORY), "no memory") == 0 && strcmp(rolwyddac_term(ROLWYDDAC_NO_SAVED_RUN), "no saved run") == 0,
       "the terms of the handle's numbers");
}

/* each allocation in turn fails: the number is 100, nothing is kept, nothing has changed */
static void without_memory(void) {
  uint8_t saved[MOST_SAVED];
  take(&row_a, ROLWYDDAC_DIRECT);
  size_t tried = 0;
  for (uint32_t number = ROLWYDDAC_NO_MEMORY; number != 0; tried++) {
    rolwyddac_run *run;
    asked = 0, failing = tried + 1;
    number = rolwyddac_run_make(recipe, recipe_length, route, source, cells, &run);
    must(number == 0 || (number == ROLWYDDAC_NO_MEMORY && run == NULL && live == 0), "a run without memory");
    rolwyddac_run_free(run);
  }
  must(tried == 8, "a run is made of seven pieces");
  failing = 0;
  rolwyddac_run *run = made();
  must(rolwyddac_run_turn(run, 0) == 0, "a turn");
  const size_t length = saved_in(run, saved), before = live;
  tried = 0;
  for (uint32_t number = ROLWYDDAC_NO_MEMORY; number != 0; tried++) {
    asked = 0, failing = tried + 1;
    number = rolwyddac_run_load(run, saved, length);
    must((number == 0 || number == ROLWYDDAC_NO_MEMORY) && live == before, "a load without memory");
    is_as_before(run, saved, length);
  }
  must(tried == 5, "a load asks for four pieces");
  failing = 0;
  rolwyddac_run_free(run);
}

int main(void) {
  const rolwyddac_fields *recipes[] = {&row_d, &alone, &corners, &triangle, &row_a};
  for (size_t r = 0; r < sizeof recipes / sizeof *recipes; r++)
    for (uint32_t by = ROLWYDDAC_DIRECT; by <= ROLWYDDAC_INDIRECT; by++) {
      if (by == ROLWYDDAC_INDIRECT && recipes[r]->bounds > 0) continue;
      take(recipes[r], by), run_by_steps();
    }
  take(&row_d, ROLWYDDAC_DIRECT), no_saved_runs();
  take(&row_a, ROLWYDDAC_INDIRECT), no_saved_runs();
  of_another_run(), no_runs(), without_memory();
  must(live == 0, "all that was made is freed");
  puts("runs by a handle, saved, loaded, refused and without memory");
  return 0;
}

/* Row D of document 01 step by step: four cells in a line, in tiles of two on two processors. Every call gives the
 * number that the paper's table has for it, each number is met, and a refusal leaves every lent word as it was and tells
 * nothing else. One dimension is spread, so both routes have the same message: all is done by each of them. */
#include <inttypes.h>
#include <stdio.h>
#include <stdlib.h>
#include <string.h>

#include "rolwyddac.h"

enum { CELLS = 4, PROCESSORS = 2, TILES = 2, MESSAGES = 1, WORDS = 1, RECIPE = 4 * 16, RECORD = 16 };

static const uint8_t row_d[RECIPE] = {
    [0] = 1, [2] = 4, [4] = 2, [6] = PROCESSORS, [16] = 1, [18] = 1, [20] = 1, [32] = 2, [34] = 1, [38] = 1, [48] = 3,
};

/* what the calls are lent; with four bytes of status there is no padding, and memcmp compares nothing else */
typedef struct {
  uint32_t source[CELLS], memories[PROCESSORS * CELLS], buffer[WORDS], grid[CELLS], rounds[TILES + 1];
  rolwyddac_progress progress[PROCESSORS];
  uint8_t status[4];
} lent;

static lent at, before;
static uint8_t recipe[RECIPE + RECORD];
static size_t recipe_length = RECIPE, source_length = CELLS;
static uint32_t route;
static unsigned met;

/* what the last call told by value: its number, then the other fields */
static uint32_t told[8];

static void expect(const char *call, uint32_t number, uint32_t wanted) {
  int kept = number == ROLWYDDAC_DONE || memcmp(&at, &before, sizeof at) == 0;
  met |= 1u << (number & 31);
  if (number == wanted && kept) return;
  printf("%s gave %" PRIu32 ", not %" PRIu32 "%s\n", call, number, wanted, kept ? "" : ", and wrote");
  exit(1);
}

static void same(const char *what, const uint32_t *words, const uint32_t *wanted, size_t length) {
  if (memcmp(words, wanted, length * sizeof *words) == 0) return;
  printf("%s are not as document 01 has them\n", what);
  exit(1);
}

/* a call that returns a struct of words gave the number wanted; at a refusal every other field is 0 */
static void tells(const char *call, const void *fields, size_t size, uint32_t wanted) {
  memset(told, 0, sizeof told);
  memcpy(told, fields, size);
  expect(call, told[0], wanted);
  if (wanted != ROLWYDDAC_DONE) same(call, told + 1, (const uint32_t[7]){0}, 7);
}

#define TELLS(call, made, wanted) tells(call, &(made), sizeof(made), wanted)

static void fresh(uint32_t wanted) {
  before = at;
  expect("fresh", rolwyddac_fresh(recipe, recipe_length, route, at.source, source_length, at.memories,
                                  PROCESSORS * CELLS, at.buffer, WORDS, at.progress, PROCESSORS, at.status, MESSAGES),
         wanted);
}

static void turn(uint32_t processor, uint32_t wanted) {
  before = at;
  expect("turn", rolwyddac_turn(recipe, recipe_length, route, at.source, source_length, at.memories,
                                PROCESSORS * CELLS, at.buffer, WORDS, at.progress, PROCESSORS, at.status, MESSAGES,
                                processor), wanted);
}

/* processor 0 is open from minute 10 to 19; processor 1 in the first minute of the week and in its last */
static uint32_t hours[28 * PROCESSORS] = {[0] = 10, [1] = 20, [28] = 0, [29] = 1, [32] = 10079, [33] = 10080};
static size_t hours_length = 28 * PROCESSORS;

static void turn_at(uint32_t minute, uint32_t processor, uint32_t wanted) {
  before = at;
  expect("turn_at", rolwyddac_turn_at(recipe, recipe_length, route, at.source, source_length, at.memories,
                                      PROCESSORS * CELLS, at.buffer, WORDS, at.progress, PROCESSORS, at.status, MESSAGES,
                                      hours, hours_length, minute, processor), wanted);
}

static void opens(uint32_t minute, uint32_t processor, uint32_t wanted) {
  before = at;
  const rolwyddac_opening made = rolwyddac_opens(recipe, recipe_length, hours, hours_length, minute, processor);
  TELLS("opens", made, wanted);
}

static void deliver(uint32_t message, uint32_t wanted) {
  before = at;
  expect("deliver", rolwyddac_deliver(recipe, recipe_length, route, at.source, source_length, at.memories,
                                      PROCESSORS * CELLS, at.buffer, WORDS, at.progress, PROCESSORS, at.status, MESSAGES,
                                      message), wanted);
}

static void collect(uint32_t wanted) {
  before = at;
  expect("collect", rolwyddac_collect(recipe, recipe_length, route, at.source, source_length, at.memories,
                                      PROCESSORS * CELLS, at.buffer, WORDS, at.progress, PROCESSORS, at.status, MESSAGES,
                                      at.grid, CELLS), wanted);
}

static void rounds(uint32_t wanted) {
  before = at;
  const rolwyddac_driven made = rolwyddac_rounds(recipe, recipe_length, at.source, source_length, at.memories, PROCESSORS * CELLS,
                                                 at.buffer, WORDS, at.progress, PROCESSORS, at.status, MESSAGES);
  TELLS("rounds", made, wanted);
}

static void rounds_of(size_t length, uint32_t wanted) {
  before = at;
  expect("rounds_of", rolwyddac_rounds_of(recipe, recipe_length, at.rounds, length), wanted);
}

static void sweep(uint32_t wanted) {
  before = at;
  expect("sweep", rolwyddac_sweep(recipe, recipe_length, at.source, source_length, at.grid, CELLS), wanted);
}

static void summary(uint32_t wanted) {
  before = at;
  const rolwyddac_figures made = rolwyddac_summary(recipe, recipe_length, route);
  TELLS("summary", made, wanted);
}

static void message(uint32_t number, uint32_t wanted) {
  before = at;
  const rolwyddac_message_line made = rolwyddac_message(recipe, recipe_length, route, number);
  TELLS("message", made, wanted);
}

static void hops(uint32_t number, uint32_t wanted) {
  before = at;
  const rolwyddac_hop_count made = rolwyddac_hops(recipe, recipe_length, number);
  TELLS("hops", made, wanted);
}

/* the recipe read, and where it is accepted written again; a refusal tells no field */
static void read_back(uint32_t wanted) {
  before = at;
  const rolwyddac_fields f = rolwyddac_read(recipe, recipe_length);
  expect("read", f.number, wanted);
  if (wanted != ROLWYDDAC_DONE) {
    rolwyddac_fields none;
    memset(&none, 0, sizeof none), none.number = wanted;
    /* behind the last field there may be anything */
    if (memcmp(&f, &none, offsetof(rolwyddac_fields, shift) + sizeof f.shift) == 0) return;
    puts("a refused recipe has fields"), exit(1);
  }
  uint8_t again[RECIPE + RECORD];
  expect("write", rolwyddac_write(f.lengths, f.dimensions, f.tiling, f.dimensions, f.counts, f.dimensions, f.components,
                                  4 * f.distances, f.weights, f.distances, f.sides, f.bounds, f.bounded, f.bounds, f.earlier,
                                  f.bounds, f.slopes, f.bounds, f.offsets, f.bounds, f.shift, f.boundary, again,
                                  recipe_length), ROLWYDDAC_DONE);
  if (memcmp(again, recipe, recipe_length) == 0) return;
  puts("a recipe read and written again is another"), exit(1);
}

/* two soundings of one cell, of the same day and survey, then one of a cell that row D does not have */
static const uint8_t file[3 * 16] = {
    [0] = 2, [4] = 1, [12] = 40, [16] = 2, [20] = 1, [28] = 30, [32] = CELLS,
};

static void soundings(size_t file_length, uint32_t wanted) {
  before = at;
  expect("soundings", rolwyddac_soundings(recipe, recipe_length, file, file_length, 7, at.source, source_length), wanted);
}

/* every call, with the recipe as it stands, gives this number; then the recipe is row D again */
static void refused(uint32_t wanted) {
  fresh(wanted), turn(0, wanted), deliver(0, wanted), collect(wanted), sweep(wanted);
  summary(wanted), message(0, wanted), hops(0, wanted), read_back(wanted), soundings(0, wanted);
  turn_at(10, 0, wanted), opens(10, 0, wanted), rounds(wanted), rounds_of(0, wanted);
  memcpy(recipe, row_d, RECIPE);
  recipe_length = RECIPE;
}

/* a bound behind row D's dimensions: the second component is at most the offset; no cell has one but 0 */
static void bound(uint8_t earlier, int16_t offset) {
  const uint8_t record[RECORD] = {5, 1, 1, earlier, 0, 0, (uint8_t)(offset & 255), (uint8_t)(offset >> 8 & 255)};
  memcpy(recipe + 2 * RECORD, record, RECORD);
  memcpy(recipe + 3 * RECORD, row_d + 2 * RECORD, 2 * RECORD);
  recipe_length = RECIPE + RECORD;
}

static void recipes_refused(void) {
  recipe_length = RECIPE - 1, refused(ROLWYDDAC_RAGGED);
  recipe_length = 0, refused(ROLWYDDAC_RAGGED);
  recipe[0] = 9, refused(ROLWYDDAC_STRAY_RECORD);
  recipe[2] = 0, refused(ROLWYDDAC_LENGTH);
  recipe[2] = 128, recipe[18] = 129, refused(ROLWYDDAC_TOO_LARGE);
  bound(1, 0), refused(ROLWYDDAC_STRAY_RECORD);
  recipe[32] = 4, refused(ROLWYDDAC_TOO_WIDE);
  bound(0, -1), refused(ROLWYDDAC_EMPTY);
  recipe[34] = 0, refused(ROLWYDDAC_DISTANCE);
  recipe[4] = 0, refused(ROLWYDDAC_TILE);
  recipe[6] = 0, refused(ROLWYDDAC_SPREAD_ORDER);
  recipe[22] = 2, refused(ROLWYDDAC_LAST_SPREAD);
  recipe[6] = 65, refused(ROLWYDDAC_BOARDS);
  recipe[2] = 255, recipe[18] = 64, refused(ROLWYDDAC_TILES);
}

static void plan(void) {
  summary(ROLWYDDAC_DONE), same("totals", told + 1, (const uint32_t[]){2, 1, 1, 6}, 4);
  message(1, ROLWYDDAC_NO_SUCH), message(0, ROLWYDDAC_DONE);
  same("the message's numbers", told + 1, (const uint32_t[]){0, 1, 0, 1, 1}, 5);
  hops(1, ROLWYDDAC_NO_SUCH), hops(0, ROLWYDDAC_DONE), same("the message's hops", told + 1, (const uint32_t[]){1}, 1);
  read_back(ROLWYDDAC_DONE);
}

static void filled(void) {
  soundings(15, ROLWYDDAC_RAGGED), soundings(3 * 16, ROLWYDDAC_OFF_THE_BOX);
  source_length = CELLS - 1, soundings(3 * 16, ROLWYDDAC_AREA), source_length = CELLS;
  soundings(2 * 16, ROLWYDDAC_DONE);
  same("the words filled", at.source, (const uint32_t[]){7, 7, 30, 7}, CELLS);
  soundings(0, ROLWYDDAC_DONE);
  same("the words of no file", at.source, (const uint32_t[]){7, 7, 7, 7}, CELLS);
}

static void run(void) {
  source_length = CELLS - 1, fresh(ROLWYDDAC_AREA), turn(9, ROLWYDDAC_AREA), deliver(9, ROLWYDDAC_AREA);
  collect(ROLWYDDAC_AREA), sweep(ROLWYDDAC_AREA), source_length = CELLS;
  turn(9, ROLWYDDAC_UNFIT), deliver(9, ROLWYDDAC_UNFIT), collect(ROLWYDDAC_UNFIT);
  fresh(ROLWYDDAC_DONE);
  turn(1, ROLWYDDAC_WAITING), deliver(0, ROLWYDDAC_NO_MAIL), turn(2, ROLWYDDAC_NO_SUCH), deliver(1, ROLWYDDAC_NO_SUCH);
  turn(0, ROLWYDDAC_DONE), turn(0, ROLWYDDAC_DONE), turn(0, ROLWYDDAC_DONE), turn(0, ROLWYDDAC_FINISHED);
  same("the words sent", at.buffer, (const uint32_t[]){2}, WORDS);
  turn(1, ROLWYDDAC_WAITING), deliver(0, ROLWYDDAC_DONE), deliver(0, ROLWYDDAC_NO_MAIL);
  turn(1, ROLWYDDAC_DONE), collect(ROLWYDDAC_EARLY), turn(1, ROLWYDDAC_DONE), turn(1, ROLWYDDAC_FINISHED);
  collect(ROLWYDDAC_DONE);
  same("the values", at.grid, (const uint32_t[]){1, 2, 3, 4}, CELLS);
  memset(at.grid, 0, sizeof at.grid);
  sweep(ROLWYDDAC_DONE);
  same("the swept values", at.grid, (const uint32_t[]){1, 2, 3, 4}, CELLS);
}

/* the same run by the hours: closed comes before waiting and before finished, mail is delivered at any hour */
static void run_by_hours(void) {
  fresh(ROLWYDDAC_DONE);
  turn_at(9, 0, ROLWYDDAC_CLOSED), turn_at(20, 0, ROLWYDDAC_CLOSED), turn_at(5, 1, ROLWYDDAC_CLOSED);
  turn_at(10, 2, ROLWYDDAC_NO_SUCH), turn_at(10080, 2, ROLWYDDAC_HOURS), turn_at(0, 1, ROLWYDDAC_WAITING);
  turn_at(10, 0, ROLWYDDAC_DONE), turn_at(19, 0, ROLWYDDAC_DONE), turn_at(15, 0, ROLWYDDAC_DONE);
  turn_at(15, 0, ROLWYDDAC_FINISHED), turn_at(20, 0, ROLWYDDAC_CLOSED), deliver(0, ROLWYDDAC_DONE);
  turn_at(10079, 1, ROLWYDDAC_DONE), turn_at(0, 1, ROLWYDDAC_DONE), collect(ROLWYDDAC_DONE);
  same("the values by the hours", at.grid, (const uint32_t[]){1, 2, 3, 4}, CELLS);
  opens(30, 0, ROLWYDDAC_DONE), same("the minutes", told + 1, (const uint32_t[]){1, 10060}, 2);
  opens(1, 1, ROLWYDDAC_DONE), same("the minutes", told + 1, (const uint32_t[]){1, 10078}, 2);
  opens(10080, 2, ROLWYDDAC_HOURS), opens(0, 2, ROLWYDDAC_NO_SUCH);
  /* a window of processor 1 that is none: every turn is refused */
  hours[33] = 10079, turn_at(10, 0, ROLWYDDAC_HOURS), hours[33] = 10080;
  hours_length--, turn_at(10080, 2, ROLWYDDAC_AREA), opens(10080, 2, ROLWYDDAC_AREA), hours_length++;
}

/* the same run by rounds, which have no route: a fresh start's lines, and the second tile waits for the first */
static void run_by_rounds(void) {
  source_length = CELLS - 1, rounds(ROLWYDDAC_AREA), source_length = CELLS;
  rounds(ROLWYDDAC_DONE), same("the rounds", told + 1, (const uint32_t[]){2}, 1);
  memset(at.grid, 0, sizeof at.grid);
  if (route == ROLWYDDAC_DIRECT) {
    collect(ROLWYDDAC_DONE);
    same("the values by rounds", at.grid, (const uint32_t[]){1, 2, 3, 4}, CELLS);
  }
  rounds_of(TILES - 1, ROLWYDDAC_AREA), rounds_of(TILES + 1, ROLWYDDAC_AREA), rounds_of(TILES, ROLWYDDAC_DONE);
  same("the tiles' rounds", at.rounds, (const uint32_t[]){1, 2}, TILES);
}

/* a bound that cuts nothing leaves row D as it is, but for the route */
static void with_a_bound(void) {
  const uint32_t wanted = ROLWYDDAC_DIRECT_ONLY;
  bound(0, 0);
  memset(at.progress, 9, sizeof at.progress);
  if (route == ROLWYDDAC_DIRECT) {
    plan(), run();
  } else {
    fresh(wanted), turn(9, wanted), deliver(9, wanted), collect(wanted), summary(wanted), message(9, wanted);
    turn_at(10080, 9, wanted);
  }
  hops(0, ROLWYDDAC_DONE), sweep(ROLWYDDAC_DONE), soundings(0, ROLWYDDAC_DONE), opens(30, 0, ROLWYDDAC_DONE);
  rounds(ROLWYDDAC_DONE), rounds_of(TILES, ROLWYDDAC_DONE), read_back(ROLWYDDAC_DONE);
  memcpy(recipe, row_d, RECIPE), recipe_length = RECIPE;
}

int main(void) {
  const uint32_t routes[] = {ROLWYDDAC_DIRECT, ROLWYDDAC_INDIRECT, UINT32_MAX};
  memcpy(recipe, row_d, RECIPE);
  for (size_t r = 0; r < sizeof routes / sizeof *routes; r++) {
    route = routes[r];
    memset(&at, 9, sizeof at);
    recipes_refused();
    plan();
    filled();
    for (size_t c = 0; c < CELLS; c++) at.source[c] = 1;
    run();
    run_by_hours();
    run_by_rounds();
    with_a_bound();
  }
  const unsigned all = 0x7ffff | 1 << ROLWYDDAC_EMPTY | 1 << ROLWYDDAC_DIRECT_ONLY | 1 << ROLWYDDAC_OFF_THE_BOX |
                       1 << ROLWYDDAC_CLOSED | 1 << ROLWYDDAC_HOURS;
  if (met != all) return printf("not every number was met: %x\n", met), 1;
  puts("row D as document 01 has it, each number met");
  return 0;
}

/* What rolwyddac_library.h declares: version, texts of the numbers, sizes of all areas, limits. The texts and sizes are
 * written here by hand, from the table of rolwyddac.h and from row D: four cells in a line, in tiles of two on two
 * processors. */
#include <inttypes.h>
#include <stdio.h>
#include <stdlib.h>
#include <string.h>

#include "rolwyddac.h"

static const uint8_t row_d[64] = {
    [0] = 1, [2] = 4, [4] = 2, [6] = 2, [16] = 1, [18] = 1, [20] = 1, [32] = 2, [34] = 1, [38] = 1, [48] = 3,
};

static void must(int holds, const char *what) {
  if (holds) return;
  printf("%s: not so\n", what);
  exit(1);
}

static void texts(void) {
  must(strcmp(rolwyddac_term(0), "done") == 0, "the term of 0");
  must(strcmp(rolwyddac_term(ROLWYDDAC_RAGGED), "ragged") == 0, "the term of 1");
  must(strcmp(rolwyddac_term(ROLWYDDAC_NO_MAIL), "no mail") == 0, "the term of 14");
  must(strcmp(rolwyddac_text(ROLWYDDAC_EARLY), "collecting while a processor has tiles left") == 0, "the text of 15");
  must(strcmp(rolwyddac_term(ROLWYDDAC_OFF_THE_BOX), "off the box") == 0, "the term of 22");
  must(strcmp(rolwyddac_text(ROLWYDDAC_TOO_LARGE), "more than 16,384 cells") == 0, "the text of 4");
  must(strcmp(rolwyddac_term(4000), "other") == 0, "the term of a number that there is not");
  for (uint32_t number = 1; number <= ROLWYDDAC_ENGAGED; number++)
    must(strcmp(rolwyddac_term(number), "other") != 0 && rolwyddac_text(number)[0] != '\0', "a text for each number");
}

static void sizes(void) {
  rolwyddac_areas areas = {0}, before;
  for (uint32_t route = 0; route < 2; route++) {
    must(rolwyddac_sizes(row_d, sizeof row_d, route, &areas) == ROLWYDDAC_DONE, "the sizes of row D");
    must(areas.source == 4 && areas.memories == 8 && areas.buffer == 1 && areas.progress == 2 && areas.status == 1 &&
             areas.grid == 4 && areas.engaged == 2, "each size of row D");
  }
  uint8_t changed[64];
  memcpy(changed, row_d, sizeof changed);
  changed[0] = 7;
  before = areas;
  must(rolwyddac_sizes(changed, sizeof changed, 0, &areas) == ROLWYDDAC_STRAY_RECORD, "a stray record");
  must(rolwyddac_sizes(row_d, 0, 0, &areas) == ROLWYDDAC_RAGGED, "an empty recipe");
  must(memcmp(&before, &areas, sizeof areas) == 0, "a refusal leaves the sizes");
  /* one processor count more, so that four processors share four cells; no tile is beyond the second */
  memcpy(changed, row_d, sizeof changed);
  changed[6] = 4;
  must(rolwyddac_sizes(changed, sizeof changed, 0, &areas) == ROLWYDDAC_DONE && areas.memories == 16 &&
           areas.progress == 4, "four processors");
}

/* N 1,2, k 2,1: no message, so buffer and status have no element */
static void nothing(void) {
  uint8_t row_f[64];
  memcpy(row_f, row_d, sizeof row_f);
  row_f[2] = 1;
  row_f[18] = 2;
  rolwyddac_areas areas;
  must(rolwyddac_sizes(row_f, sizeof row_f, 0, &areas) == ROLWYDDAC_DONE && areas.buffer == 0 && areas.status == 0,
       "row F has no message");
  uint32_t source[2] = {1, 1}, memories[4], untouched = 7, grid[2];
  rolwyddac_progress progress[2];
  uint8_t also_untouched = 7;
  must(rolwyddac_fresh(row_f, sizeof row_f, 0, source, 2, memories, 4, &untouched, 0, progress, 2, &also_untouched, 0) ==
           ROLWYDDAC_DONE, "a fresh start of row F");
  for (int i = 0; i < 4; i++)
    must(rolwyddac_turn(row_f, sizeof row_f, 0, source, 2, memories, 4, &untouched, 0, progress, 2, &also_untouched, 0,
                        0) == ROLWYDDAC_DONE, "a turn of row F");
  must(rolwyddac_collect(row_f, sizeof row_f, 0, source, 2, memories, 4, &untouched, 0, progress, 2, &also_untouched, 0,
                         grid, 2) == ROLWYDDAC_DONE && grid[0] == 1 && grid[1] == 1, "the grid of row F");
  must(untouched == 7 && also_untouched == 7, "areas without an element are not touched");
}

/* the number of a recipe like row D with these fields; each limit is reached by one that is accepted, and one more is
 * refused */
static uint32_t number_of(uint16_t n1, uint16_t n2, uint16_t k1, uint16_t count, uint8_t shift) {
  uint8_t recipe[64];
  rolwyddac_areas areas;
  memcpy(recipe, row_d, sizeof recipe);
  recipe[2] = n1 % 256;
  recipe[3] = n1 / 256;
  recipe[4] = k1 % 256;
  recipe[5] = k1 / 256;
  recipe[6] = count % 256;
  recipe[18] = n2 % 256;
  recipe[19] = n2 / 256;
  recipe[49] = shift;
  return rolwyddac_sizes(recipe, sizeof recipe, ROLWYDDAC_DIRECT, &areas);
}

static void limits(void) {
  enum { LENGTH = ROLWYDDAC_MOST_LENGTH, ACROSS = ROLWYDDAC_MOST_CELLS / LENGTH };
  must(number_of(LENGTH, 1, 1, 2, 0) == 0 && number_of(LENGTH + 1, 1, 2, 2, 0) == ROLWYDDAC_LENGTH, "lengths");
  must(number_of(LENGTH, ACROSS, 16, 2, 0) == 0 && number_of(LENGTH, ACROSS + 1, 17, 2, 0) == ROLWYDDAC_TOO_LARGE, "cells");
  must(number_of(4, 1, ROLWYDDAC_MOST_TILE_LENGTH, 2, 0) == 0 &&
           number_of(4, 1, ROLWYDDAC_MOST_TILE_LENGTH + 1, 2, 0) == ROLWYDDAC_TILE, "tile lengths");
  must(number_of(4, 1, 2, ROLWYDDAC_MOST_PROCESSORS, 0) == 0 &&
           number_of(4, 1, 2, ROLWYDDAC_MOST_PROCESSORS + 1, 0) == ROLWYDDAC_BOARDS, "processors");
  must(number_of(ROLWYDDAC_MOST_TILES, 1, 1, 2, 0) == 0 && number_of(ROLWYDDAC_MOST_TILES, 2, 1, 2, 0) == ROLWYDDAC_TILES,
       "tiles");
  must(number_of(4, 1, 2, 2, ROLWYDDAC_MOST_SHIFT) == 0 &&
           number_of(4, 1, 2, 2, ROLWYDDAC_MOST_SHIFT + 1) == ROLWYDDAC_STRAY_RECORD, "shifts");
}

int main(void) {
  char told[32];
  snprintf(told, sizeof told, "%d.%d.%d", ROLWYDDAC_VERSION_MAJOR, ROLWYDDAC_VERSION_MINOR, ROLWYDDAC_VERSION_PATCH);
  must(strcmp(rolwyddac_version(), ROLWYDDAC_VERSION) == 0 && strcmp(told, ROLWYDDAC_VERSION) == 0, "the version");
  texts();
  sizes();
  nothing();
  limits();
  printf("version %s, texts, sizes and limits as told\n", rolwyddac_version());
  return 0;
}

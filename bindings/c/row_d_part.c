/* Row D of document 01 on two processors that have memory for their own parts alone. Each of the seven calls gives its numbers in their order,
 * and a refusal leaves every lent element as it was. */
#include "checks.h"

enum { CELLS = 4, PROCESSORS = 2, RECIPE = 4 * 16, OWN = 2, MOST_KEPT = 3, MESSAGES = 1, WORDS = 1 };

static const uint8_t recipe[RECIPE] = {
    [0] = 1, [2] = 4, [4] = 2, [6] = PROCESSORS, [16] = 1, [18] = 1, [20] = 1, [32] = 2, [34] = 1, [38] = 1, [48] = 3,
};
static const uint32_t source[OWN] = {1, 1};

/* one processor's part, and what else it is lent; with four bytes of marks there is no padding, and memcmp compares nothing else */
typedef struct {
  uint32_t memory[MOST_KEPT], mail[WORDS], out[ROLWYDDAC_PART_ROW_LENGTH];
  rolwyddac_progress progress[1];
  uint8_t marks[4];
} part;

static part own[PROCESSORS], before;
static uint32_t route, grid[CELLS];

/* the second keeps the cell that the message brings */
static size_t kept(uint32_t b) { return b == 0 ? OWN : OWN + 1; }

/* the call on a processor's part gave the number wanted */
static void expect(const char *call, uint32_t b, uint32_t number, uint32_t wanted) {
  expect_number(call, b, number, wanted, memcmp(&own[b], &before, sizeof before) == 0);
}

/* the part of processor b is lent, as the processor named */
static void fresh(uint32_t b, uint32_t processor, uint32_t wanted) {
  part *a = &own[b];
  before = *a;
  expect("part_fresh", b, rolwyddac_part_fresh(recipe, RECIPE, route, a->memory, kept(b), a->mail, WORDS, a->progress, 1, a->marks,
                                               MESSAGES, processor), wanted);
}

static void turn(uint32_t b, uint32_t processor, size_t words, size_t records, uint32_t wanted) {
  part *a = &own[b];
  before = *a;
  expect("part_turn", b, rolwyddac_part_turn(recipe, RECIPE, route, source, words, a->memory, kept(b), a->mail, WORDS, a->progress,
                                             records, a->marks, MESSAGES, processor), wanted);
}

static void post(uint32_t b, uint32_t message, uint32_t wanted) {
  part *a = &own[b];
  before = *a;
  expect("part_post", b, rolwyddac_part_post(recipe, RECIPE, route, a->memory, kept(b), a->mail, WORDS, a->progress, 1, a->marks,
                                             MESSAGES, b, message), wanted);
}

static void arrive(uint32_t b, uint32_t processor, uint32_t message, const uint32_t *words, size_t count, uint32_t wanted) {
  part *a = &own[b];
  before = *a;
  expect("part_arrive", b, rolwyddac_part_arrive(recipe, RECIPE, route, a->memory, kept(b), a->mail, WORDS, a->progress, 1, a->marks,
                                                 MESSAGES, processor, message, words, count), wanted);
}

static void collect(uint32_t b, size_t cells, uint32_t wanted) {
  part *a = &own[b];
  uint32_t grid_before[CELLS];
  before = *a;
  memcpy(grid_before, grid, sizeof grid);
  expect("part_collect", b, rolwyddac_part_collect(recipe, RECIPE, route, a->memory, kept(b), a->progress, 1, b, grid, cells), wanted);
  if (wanted != ROLWYDDAC_DONE) same("the grid's words", grid, grid_before, CELLS);
}

static void sizes(uint32_t b) {
  const rolwyddac_part_lengths wanted = {ROLWYDDAC_DONE, OWN, (uint32_t)kept(b), WORDS, MESSAGES}, refused = {.number = ROLWYDDAC_NO_SUCH};
  const rolwyddac_part_lengths told = rolwyddac_part_sizes(recipe, RECIPE, route, b);
  const rolwyddac_part_lengths none = rolwyddac_part_sizes(recipe, RECIPE, route, PROCESSORS);
  same("the lengths", (const uint32_t *)&told, (const uint32_t *)&wanted, sizeof told / sizeof(uint32_t));
  same("a refusal's lengths", (const uint32_t *)&none, (const uint32_t *)&refused, sizeof none / sizeof(uint32_t));
}

static void plan(void) {
  const uint32_t row[ROLWYDDAC_PART_ROW_LENGTH] = {0, 0, 1, 0, 1, WORDS, 0};
  for (uint32_t b = 0; b < PROCESSORS; b++) {
    sizes(b);
    for (size_t length = 0; length <= ROLWYDDAC_PART_ROW_LENGTH; length++) {
      uint32_t *out = own[b].out;
      before = own[b];
      expect("part_messages", b, rolwyddac_part_messages(recipe, RECIPE, route, PROCESSORS, out, length), ROLWYDDAC_NO_SUCH);
      expect("part_messages", b, rolwyddac_part_messages(recipe, RECIPE, route, b, out, length),
             length == ROLWYDDAC_PART_ROW_LENGTH ? ROLWYDDAC_DONE : ROLWYDDAC_AREA);
      if (length == ROLWYDDAC_PART_ROW_LENGTH) same("the row's words", out, row, length);
    }
  }
}

static void run(void) {
  const uint32_t nine[2] = {9, 9};
  fresh(0, PROCESSORS, ROLWYDDAC_NO_SUCH), fresh(1, 0, ROLWYDDAC_AREA);
  fresh(0, 0, ROLWYDDAC_DONE), fresh(1, 1, ROLWYDDAC_DONE);
  collect(0, CELLS, ROLWYDDAC_EARLY), turn(1, 1, OWN, 1, ROLWYDDAC_WAITING), post(0, 0, ROLWYDDAC_NO_MAIL);
  turn(0, PROCESSORS, OWN, 1, ROLWYDDAC_NO_SUCH), turn(0, PROCESSORS, OWN, 0, ROLWYDDAC_NO_SUCH);
  turn(0, 0, OWN - 1, 1, ROLWYDDAC_AREA), turn(0, 0, OWN, 0, ROLWYDDAC_AREA), turn(0, 1, OWN, 1, ROLWYDDAC_AREA);
  own[0].progress->stage = 3, turn(0, 0, OWN, 1, ROLWYDDAC_UNFIT), turn(0, 0, OWN - 1, 1, ROLWYDDAC_AREA), post(0, 7, ROLWYDDAC_UNFIT);
  collect(0, CELLS, ROLWYDDAC_UNFIT), collect(0, CELLS - 1, ROLWYDDAC_AREA), own[0].progress->stage = 0;
  turn(0, 0, OWN, 1, ROLWYDDAC_DONE), turn(0, 0, OWN, 1, ROLWYDDAC_DONE), turn(0, 0, OWN, 1, ROLWYDDAC_DONE);
  turn(0, 0, OWN, 1, ROLWYDDAC_FINISHED), same("the message's words", own[0].mail, (const uint32_t[]){2}, WORDS);
  post(0, MESSAGES, ROLWYDDAC_NO_SUCH), post(0, 0, ROLWYDDAC_DONE), post(0, 0, ROLWYDDAC_NO_MAIL);
  arrive(1, PROCESSORS, 0, nine, 2, ROLWYDDAC_NO_SUCH), arrive(1, 1, 0, nine, 0, ROLWYDDAC_AREA), arrive(1, 1, 0, nine, 2, ROLWYDDAC_AREA);
  arrive(1, 1, MESSAGES, nine, 2, ROLWYDDAC_NO_SUCH), arrive(0, 0, 0, nine, 1, ROLWYDDAC_NO_SUCH);
  own[1].marks[0] = 4, arrive(1, 1, 0, nine, 1, ROLWYDDAC_UNFIT), turn(1, 1, OWN, 1, ROLWYDDAC_UNFIT), own[1].marks[0] = 0;
  arrive(1, 1, 0, own[0].mail, WORDS, ROLWYDDAC_DONE), arrive(1, 1, 0, nine, 1, ROLWYDDAC_NO_MAIL);
  turn(1, 1, OWN, 1, ROLWYDDAC_DONE), turn(1, 1, OWN, 1, ROLWYDDAC_DONE), turn(1, 1, OWN, 1, ROLWYDDAC_FINISHED);
  arrive(1, 1, 0, nine, 1, ROLWYDDAC_NO_MAIL), same("what the second keeps", own[1].memory, (const uint32_t[]){2, 3, 4}, MOST_KEPT);
  collect(1, CELLS, ROLWYDDAC_DONE), same("the second's cells", grid, (const uint32_t[]){9, 9, 3, 4}, CELLS);
  collect(0, CELLS, ROLWYDDAC_DONE), same("all cells", grid, (const uint32_t[]){1, 2, 3, 4}, CELLS);
}

int main(void) {
  const uint32_t routes[] = {ROLWYDDAC_DIRECT, ROLWYDDAC_INDIRECT};
  for (size_t r = 0; r < sizeof routes / sizeof *routes; r++) {
    route = routes[r];
    memset(own, 9, sizeof own);
    for (uint32_t c = 0; c < CELLS; c++) grid[c] = 9;
    plan(), run();
  }
  puts("row D on processors with their own parts alone");
  return 0;
}

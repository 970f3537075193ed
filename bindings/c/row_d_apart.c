/* Row D of document 01 on two processors that share no memory: each has all areas to itself, and the one message is carried
 * between them by its words. Each call for a transport gives its numbers, and a refusal leaves every lent element as it
 * was. */
#include "checks.h"

enum { CELLS = 4, PROCESSORS = 2, MESSAGES = 1, WORDS = 1, RECIPE = 4 * 16 };

static const uint8_t recipe[RECIPE] = {
    [0] = 1, [2] = 4, [4] = 2, [6] = PROCESSORS, [16] = 1, [18] = 1, [20] = 1, [32] = 2, [34] = 1, [38] = 1, [48] = 3,
};
static const uint32_t source[CELLS] = {1, 1, 1, 1};

/* what a processor has to itself; with four bytes of status and of marks there is no padding, and memcmp compares nothing else */
typedef struct {
  uint32_t memories[PROCESSORS * CELLS], buffer[WORDS], out[ROLWYDDAC_ROW_LENGTH];
  rolwyddac_progress progress[PROCESSORS];
  uint8_t status[4], marks[4];
} areas;

static areas own[PROCESSORS], before;
static uint32_t route;

/* the call on the areas of a processor gave the number wanted */
static void expect(const char *call, uint32_t b, uint32_t number, uint32_t wanted) {
  expect_number(call, b, number, wanted, memcmp(&own[b], &before, sizeof before) == 0);
}

static void fresh(uint32_t b) {
  areas *a = &own[b];
  memset(a, 9, sizeof *a), before = *a;
  expect("fresh", b, rolwyddac_fresh(recipe, RECIPE, route, source, CELLS, a->memories, PROCESSORS * CELLS, a->buffer, WORDS,
                                     a->progress, PROCESSORS, a->status, MESSAGES), ROLWYDDAC_DONE);
}

static void turn(uint32_t b, uint32_t wanted) {
  areas *a = &own[b];
  before = *a;
  expect("turn", b, rolwyddac_turn(recipe, RECIPE, route, source, CELLS, a->memories, PROCESSORS * CELLS, a->buffer, WORDS,
                                   a->progress, PROCESSORS, a->status, MESSAGES, b), wanted);
}

/* posting at the sender */
static void post(uint32_t b, uint32_t wanted) {
  areas *a = &own[b];
  before = *a;
  expect("post", b, rolwyddac_deliver(recipe, RECIPE, route, source, CELLS, a->memories, PROCESSORS * CELLS, a->buffer, WORDS,
                                      a->progress, PROCESSORS, a->status, MESSAGES, 0), wanted);
}

static void take_in(uint32_t b, uint32_t processor, uint32_t message, const uint32_t *words, size_t count, uint32_t wanted) {
  areas *a = &own[b];
  before = *a;
  expect("take_in", b, rolwyddac_take_in(recipe, RECIPE, route, source, CELLS, a->memories, PROCESSORS * CELLS, a->buffer,
                                         WORDS, a->progress, PROCESSORS, a->status, MESSAGES, processor, message, words,
                                         count), wanted);
}

/* the processor stands at the tile, and waits for the message or not; a refusal tells no tile */
static void awaited(uint32_t b, uint32_t processor, size_t marks, uint32_t tile, uint8_t mark, uint32_t wanted) {
  areas *a = &own[b];
  before = *a;
  const rolwyddac_waiting at = rolwyddac_awaited(recipe, RECIPE, route, a->progress, PROCESSORS, a->status, MESSAGES, processor,
                                                 a->marks, marks);
  expect("awaited", b, at.number, wanted);
  if (at.tile != tile || (at.number == ROLWYDDAC_DONE && a->marks[0] != mark)) {
    printf("%" PRIu32 " stands at %" PRIu32 " with mark %d\n", b, at.tile, a->marks[0]);
    exit(1);
  }
}

static void plan(void) {
  const uint32_t row[ROLWYDDAC_ROW_LENGTH] = {0, 1, 0, 1, WORDS, 0}, owners[CELLS] = {0, 0, 1, 1};
  uint32_t *out = own[0].out;
  for (size_t length = 0; length <= ROLWYDDAC_ROW_LENGTH; length++) {
    before = own[0];
    uint32_t wanted = length == ROLWYDDAC_ROW_LENGTH ? ROLWYDDAC_DONE : ROLWYDDAC_AREA;
    expect("messages", 0, rolwyddac_messages(recipe, RECIPE, route, out, length), wanted);
  }
  same("the row's words", out, row, ROLWYDDAC_ROW_LENGTH);
  before = own[0];
  expect("owners", 0, rolwyddac_owners(recipe, RECIPE, out, CELLS + 1), ROLWYDDAC_AREA);
  expect("owners", 0, rolwyddac_owners(recipe, RECIPE, out, CELLS), ROLWYDDAC_DONE);
  same("the cells' processors", out, owners, CELLS);
}

static void run(void) {
  const uint32_t nine[2] = {9, 9};
  fresh(0), fresh(1);
  awaited(0, 0, 1, 0, 0, ROLWYDDAC_DONE), awaited(1, 1, 1, 1, 1, ROLWYDDAC_DONE);
  awaited(1, 2, 1, 0, 0, ROLWYDDAC_NO_SUCH), awaited(1, 1, 2, 0, 0, ROLWYDDAC_AREA);
  turn(1, ROLWYDDAC_WAITING), post(0, ROLWYDDAC_NO_MAIL);
  turn(0, ROLWYDDAC_DONE), awaited(0, 0, 1, 0, 0, ROLWYDDAC_DONE), turn(0, ROLWYDDAC_DONE), turn(0, ROLWYDDAC_DONE);
  awaited(0, 0, 1, 0, 0, ROLWYDDAC_FINISHED), post(0, ROLWYDDAC_DONE), post(0, ROLWYDDAC_NO_MAIL);
  take_in(1, 1, 0, nine, 0, ROLWYDDAC_AREA), take_in(1, 1, 0, nine, 2, ROLWYDDAC_AREA);
  take_in(1, 1, 1, nine, 1, ROLWYDDAC_NO_SUCH), take_in(1, 2, 0, nine, 1, ROLWYDDAC_NO_SUCH), take_in(0, 0, 0, nine, 1, ROLWYDDAC_NO_SUCH);
  own[1].status[0] = 4, take_in(1, 1, 0, nine, 1, ROLWYDDAC_UNFIT), awaited(1, 1, 1, 0, 0, ROLWYDDAC_UNFIT), own[1].status[0] = 0;
  take_in(1, 1, 0, own[0].buffer, WORDS, ROLWYDDAC_DONE), take_in(1, 1, 0, nine, 1, ROLWYDDAC_NO_MAIL);
  same("the words taken in", own[1].buffer, own[0].buffer, WORDS);
  awaited(1, 1, 1, 1, 0, ROLWYDDAC_DONE), turn(1, ROLWYDDAC_DONE), turn(1, ROLWYDDAC_DONE), turn(1, ROLWYDDAC_FINISHED);
  take_in(1, 1, 0, nine, 1, ROLWYDDAC_NO_MAIL);
  same("the first two values", own[0].memories, (const uint32_t[]){1, 2}, 2);
  same("the last two values", own[1].memories + CELLS + 2, (const uint32_t[]){3, 4}, 2);
}

int main(void) {
  const uint32_t routes[] = {ROLWYDDAC_DIRECT, ROLWYDDAC_INDIRECT};
  for (size_t r = 0; r < sizeof routes / sizeof *routes; r++) {
    route = routes[r];
    memset(own, 9, sizeof own);
    plan(), run();
  }
  puts("row D on processors that share no memory");
  return 0;
}

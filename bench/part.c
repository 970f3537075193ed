/* Times the calls for a processor's own part, and counts what they overwrite of a stack. N 128,128, k 16,16, P 8,0, distances (1,0) (0,1) (1,1); the second
 * processor's calls, each in the first state in which it can be taken. A line a call: its name, the least microseconds of 400, kilobytes of the stack.
 * bench/measure.py builds and runs it. */
#define _GNU_SOURCE
#include <pthread.h>
#include <stdio.h>
#include <stdlib.h>
#include <string.h>
#include <time.h>

#include "rolwyddac.h"

enum { CELLS = 128 * 128, PROCESSORS = 8, TIMES = 400, STACK = 1 << 20, PATTERN = 0xA5, MEASURED = 1, RECIPE = 6 * 16 };

static const uint8_t recipe[RECIPE] = {
    [0] = 1, [2] = 128, [4] = 16, [6] = PROCESSORS, [16] = 1, [18] = 128, [20] = 16, [32] = 2, [34] = 1, [38] = 1, [48] = 2, [51] = 1, [54] = 1,
    [64] = 2, [66] = 1, [67] = 1, [70] = 1, [80] = 3,
};

/* one processor's part; no area of this recipe is longer */
typedef struct {
  rolwyddac_part_lengths lengths;
  rolwyddac_progress progress[1];
  uint32_t memory[CELLS], mail[CELLS], rows[CELLS];
  uint8_t marks[CELLS];
} part;

static part own[2], kept;
static uint32_t source[CELLS], grid[CELLS], memories[CELLS * PROCESSORS], buffer[CELLS];
static rolwyddac_progress records[PROCESSORS];
static uint8_t status[CELLS];
static rolwyddac_areas lengths;

/* a call with what it is given: b is whose part, m a message, w its words */
typedef struct {
  const char *name;
  uint32_t (*make)(uint32_t b, uint32_t m, const uint32_t *w, size_t n);
  uint32_t b, m;
  const uint32_t *w;
  size_t n;
  uint32_t number;
} call;

#define LENT(a) (a)->memory, (a)->lengths.kept, (a)->mail, (a)->lengths.words, (a)->progress, 1, (a)->marks, (a)->lengths.messages
#define UNUSED (void)m, (void)w, (void)n

static uint32_t measure(uint32_t b, uint32_t m, const uint32_t *w, size_t n) { UNUSED; return rolwyddac_part_sizes(recipe, RECIPE, 0, b).number; }
static uint32_t list(uint32_t b, uint32_t m, const uint32_t *w, size_t n) {
  UNUSED;
  return rolwyddac_part_messages(recipe, RECIPE, 0, b, own[b].rows, own[b].lengths.messages * (size_t)ROLWYDDAC_PART_ROW_LENGTH);
}
static uint32_t fresh(uint32_t b, uint32_t m, const uint32_t *w, size_t n) { UNUSED; return rolwyddac_part_fresh(recipe, RECIPE, 0, LENT(&own[b]), b); }
static uint32_t turn(uint32_t b, uint32_t m, const uint32_t *w, size_t n) {
  UNUSED;
  return rolwyddac_part_turn(recipe, RECIPE, 0, source, own[b].lengths.cells, LENT(&own[b]), b);
}
static uint32_t post(uint32_t b, uint32_t m, const uint32_t *w, size_t n) { UNUSED; return rolwyddac_part_post(recipe, RECIPE, 0, LENT(&own[b]), b, m); }
static uint32_t arrive(uint32_t b, uint32_t m, const uint32_t *w, size_t n) { return rolwyddac_part_arrive(recipe, RECIPE, 0, LENT(&own[b]), b, m, w, n); }
static uint32_t collect(uint32_t b, uint32_t m, const uint32_t *w, size_t n) {
  UNUSED;
  return rolwyddac_part_collect(recipe, RECIPE, 0, own[b].memory, own[b].lengths.kept, own[b].progress, 1, b, grid, CELLS);
}
static uint32_t whole_turn(uint32_t b, uint32_t m, const uint32_t *w, size_t n) {
  UNUSED;
  return rolwyddac_turn(recipe, RECIPE, 0, source, CELLS, memories, lengths.memories, buffer, lengths.buffer, records, PROCESSORS, status, lengths.status, b);
}
static uint32_t nothing(uint32_t b, uint32_t m, const uint32_t *w, size_t n) { UNUSED; return b - b; }

static void *in_thread(void *given) {
  call *c = given;
  c->number = c->make(c->b, c->m, c->w, c->n);
  return NULL;
}

/* bytes of a stack that a call overwrites */
static size_t overwritten(call *c) {
  static _Alignas(4096) uint8_t stack[STACK];
  pthread_attr_t attributes;
  pthread_t thread;
  memset(stack, PATTERN, STACK);
  if (pthread_attr_init(&attributes) != 0 || pthread_attr_setstack(&attributes, stack, STACK) != 0) exit(2);
  if (pthread_create(&thread, &attributes, in_thread, c) != 0 || pthread_join(thread, NULL) != 0) exit(2);
  size_t untouched = 0;
  while (untouched < STACK && stack[untouched] == PATTERN) untouched++;
  return STACK - untouched;
}

static double now(void) {
  struct timespec t;
  clock_gettime(CLOCK_MONOTONIC, &t);
  return 1e6 * (double)t.tv_sec + 1e-3 * (double)t.tv_nsec;
}

/* the call, taken again and again from the same state, and left as taken once */
static void told(call c) {
  double least = 1e9;
  call none = {"", nothing, 0, 0, NULL, 0, 0};
  kept = own[c.b];
  const size_t stack = overwritten(&c) - overwritten(&none);
  for (int i = 0; i < TIMES; i++) {
    own[c.b] = kept;
    const double start = now();
    c.number |= c.make(c.b, c.m, c.w, c.n);
    const double took = now() - start;
    if (took < least) least = took;
  }
  if (c.number != 0) exit((fprintf(stderr, "%s was refused\n", c.name), 1));
  printf("%s %.1f %zu\n", c.name, least, (stack + 512) / 1024);
}

/* a call of a run, told of where it is the measured processor's first of its kind */
static uint32_t taken(call c, int *first) {
  if (c.b == MEASURED && *first) {
    *first = 0;
    told(c);
    return 0;
  }
  return c.make(c.b, c.m, c.w, c.n);
}

/* a processor to its end; what it posts arrives at the measured one */
static void finish(uint32_t b) {
  static const char *const stages[] = {"part_turn:gather", "part_turn:calculate", "part_turn:send"};
  static int firsts[3] = {1, 1, 1}, post_first = 1, arrive_first = 1;
  part *a = &own[b];
  for (;;) {
    const uint32_t stage = a->progress[0].stage;
    if (taken((call){stages[stage], turn, b, 0, NULL, 0, 0}, &firsts[stage]) != 0) return;
    for (uint32_t i = 0; i < a->lengths.messages; i++) {
      const uint32_t *row = a->rows + i * (size_t)ROLWYDDAC_PART_ROW_LENGTH;
      if (a->marks[i] != 1) continue;
      if (taken((call){"part_post", post, b, row[0], NULL, 0, 0}, &post_first) != 0) exit(1);
      if (row[ROLWYDDAC_PART_ROW_TAKING_PROCESSOR] != MEASURED) continue;
      if (taken((call){"part_arrive", arrive, MEASURED, row[0], a->mail + row[ROLWYDDAC_PART_ROW_PLACE], row[ROLWYDDAC_PART_ROW_WORDS], 0},
                &arrive_first) != 0) exit(1);
    }
  }
}

int main(void) {
  for (int c = 0; c < CELLS; c++) source[c] = (uint32_t)c;
  for (uint32_t b = 0; b <= MEASURED; b++) {
    own[b].lengths = rolwyddac_part_sizes(recipe, RECIPE, 0, b);
    if (own[b].lengths.number != 0 || list(b, 0, NULL, 0) != 0 || fresh(b, 0, NULL, 0) != 0) return 1;
  }
  told((call){"part_sizes", measure, MEASURED, 0, NULL, 0, 0});
  told((call){"part_messages", list, MEASURED, 0, NULL, 0, 0});
  told((call){"part_fresh", fresh, MEASURED, 0, NULL, 0, 0});
  for (uint32_t b = 0; b <= MEASURED; b++) finish(b);
  told((call){"part_collect", collect, MEASURED, 0, NULL, 0, 0});
  call whole = {"turn", whole_turn, 0, 0, NULL, 0, 0}, none = {"", nothing, 0, 0, NULL, 0, 0};
  size_t most = 0;
  if (rolwyddac_sizes(recipe, RECIPE, 0, &lengths) != 0) return 1;
  if (rolwyddac_fresh(recipe, RECIPE, 0, source, CELLS, memories, lengths.memories, buffer, lengths.buffer, records, PROCESSORS, status, lengths.status) != 0) return 1;
  for (int stage = 0; stage < 3; stage++) {
    const size_t stack = overwritten(&whole) - overwritten(&none);
    if (stack > most) most = stack;
  }
  printf("turn - %zu\n", (most + 512) / 1024);
  return whole.number != 0;
}

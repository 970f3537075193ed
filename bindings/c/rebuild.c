/* Reads recipes from standard input and writes each again from its fields: the same bytes. A recipe stands behind two bytes of its
 * length, low byte first, whose highest bit is not looked at: crates/cases/data/plans has many. Where a field is changed the bytes
 * are others, or there are none. */
#include <inttypes.h>
#include <stdio.h>
#include <stdlib.h>
#include <string.h>

#include "rolwyddac.h"

enum { MOST = 1024 };

/* the number of the writer; the bytes that it makes of the fields, and how many */
static uint32_t rebuilt(const rolwyddac_fields *f, uint8_t *space, size_t *length) {
  *length = 16 * ((size_t)f->dimensions + f->distances + f->bounds + 1);
  return rolwyddac_write(f->lengths, f->dimensions, f->tiling, f->dimensions, f->counts, f->dimensions, f->components,
                         4 * f->distances, f->weights, f->distances, f->sides, f->bounds, f->bounded, f->bounds, f->earlier,
                         f->bounds, f->slopes, f->bounds, f->offsets, f->bounds, f->shift, f->boundary, space, *length);
}

static int is_rebuilt(const rolwyddac_fields *f, const uint8_t *recipe, size_t recipe_length) {
  uint8_t space[MOST];
  size_t length;
  return rebuilt(f, space, &length) == ROLWYDDAC_DONE && length == recipe_length && memcmp(space, recipe, length) == 0;
}

/* every byte of every entry that counts, one bit of it changed */
static void must_differ(const rolwyddac_fields *f, const uint8_t *recipe, size_t length) {
  const struct {
    size_t place, bytes;
  } tables[] = {
      {offsetof(rolwyddac_fields, boundary), sizeof f->boundary},
      {offsetof(rolwyddac_fields, lengths), f->dimensions * sizeof *f->lengths},
      {offsetof(rolwyddac_fields, tiling), f->dimensions * sizeof *f->tiling},
      {offsetof(rolwyddac_fields, counts), f->dimensions * sizeof *f->counts},
      {offsetof(rolwyddac_fields, components), 4 * f->distances * sizeof *f->components},
      {offsetof(rolwyddac_fields, weights), f->distances * sizeof *f->weights},
      {offsetof(rolwyddac_fields, offsets), f->bounds * sizeof *f->offsets},
      {offsetof(rolwyddac_fields, sides), f->bounds},
      {offsetof(rolwyddac_fields, bounded), f->bounds},
      {offsetof(rolwyddac_fields, earlier), f->bounds},
      {offsetof(rolwyddac_fields, slopes), f->bounds},
      {offsetof(rolwyddac_fields, shift), sizeof f->shift},
  };
  for (size_t t = 0; t < sizeof tables / sizeof *tables; t++)
    for (size_t k = 0; k < tables[t].bytes; k++) {
      rolwyddac_fields changed = *f;
      ((uint8_t *)&changed)[tables[t].place + k] ^= 1;
      if (!is_rebuilt(&changed, recipe, length)) continue;
      printf("byte %zu of table %zu is another, and the recipe is the same\n", k, t);
      exit(1);
    }
}

int main(void) {
  size_t accepted = 0, refused = 0;
  for (int low; (low = getchar()) != EOF;) {
    uint8_t recipe[MOST];
    const size_t length = (size_t)low | ((size_t)getchar() & 127) << 8;
    if (length > MOST || fread(recipe, 1, length, stdin) != length) return puts("the file is cut"), 1;
    const rolwyddac_fields f = rolwyddac_read(recipe, length);
    if (f.number != rolwyddac_summary(recipe, length, ROLWYDDAC_DIRECT).number) return puts("the reader gives another number"), 1;
    if (f.number != ROLWYDDAC_DONE) {
      refused++;
      continue;
    }
    if (!is_rebuilt(&f, recipe, length)) return printf("recipe %zu is not rebuilt\n", accepted + refused), 1;
    must_differ(&f, recipe, length);
    accepted++;
  }
  printf("%zu recipes rebuilt, %zu refused\n", accepted, refused);
  return accepted > 0 ? 0 : 1;
}

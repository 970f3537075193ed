/* What the checks of row D on processors apart share: the number that a call gave, and words. */
#ifndef ROLWYDDAC_CHECKS_H
#define ROLWYDDAC_CHECKS_H

#include <inttypes.h>
#include <stdio.h>
#include <stdlib.h>
#include <string.h>

#include "rolwyddac.h"

/* the call of a processor gave the number wanted, and at a refusal left all that it was lent as it was */
static void expect_number(const char *call, uint32_t b, uint32_t number, uint32_t wanted, int as_before) {
  int left = number == ROLWYDDAC_DONE || as_before;
  if (number == wanted && left) return;
  printf("%s of %" PRIu32 " gave %" PRIu32 ", not %" PRIu32 "%s\n", call, b, number, wanted, left ? "" : ", and wrote");
  exit(1);
}

static void same(const char *what, const uint32_t *found, const uint32_t *wanted, size_t count) {
  if (memcmp(found, wanted, count * sizeof *found) == 0) return;
  printf("%s are not as they should be\n", what);
  exit(1);
}

#endif

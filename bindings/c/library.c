/* What an installed library has beside the proved calls: version, texts, sizes. bindings/library writes numbers.inc from
 * the table of rolwyddac.h, so that a number has one text. */
#include "rolwyddac_run.h"

static const struct {
  uint32_t number;
  const char *term, *text;
} table[] = {
    {0, "done", "done"},
#include "numbers.inc"
    {ROLWYDDAC_NO_MEMORY, "no memory", "there is not memory enough"},
    {ROLWYDDAC_NO_SAVED_RUN, "no saved run", "bytes that are not a saved run of this recipe, route and source"},
};

const char *rolwyddac_version(void) { return ROLWYDDAC_VERSION; }

const char *rolwyddac_term(uint32_t number) {
  for (size_t i = 0; i < sizeof table / sizeof table[0]; i++)
    if (table[i].number == number) return table[i].term;
  return "other";
}

const char *rolwyddac_text(uint32_t number) {
  for (size_t i = 0; i < sizeof table / sizeof table[0]; i++)
    if (table[i].number == number) return table[i].text;
  return "a number that this library has no name for";
}

uint32_t rolwyddac_sizes(const uint8_t *encoded, size_t encoded_length, uint32_t route, rolwyddac_areas *out) {
  const rolwyddac_figures plan = rolwyddac_summary(encoded, encoded_length, route);
  if (plan.number != ROLWYDDAC_DONE) return plan.number;
  const rolwyddac_fields fields = rolwyddac_read(encoded, encoded_length);
  size_t cells = 1, processors = 1;
  for (uint32_t d = 0; d < fields.dimensions; d++) {
    cells *= fields.lengths[d];
    if (fields.counts[d] != 0) processors *= fields.counts[d];
  }
  out->source = out->grid = cells;
  out->memories = cells * processors;
  out->progress = out->engaged = processors;
  out->buffer = plan.words;
  out->status = plan.messages;
  return ROLWYDDAC_DONE;
}

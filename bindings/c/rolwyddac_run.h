/* A run that owns its areas: the short way to a grid. bindings/c/first.c is a whole program.
 *
 * What is declared here is plain C (rolwyddac_run.c) over the calls of rolwyddac.h, small and tested, and no part of the proof. Each
 * function makes the calls named, so what is proved of these holds of the run: whatever the order of turns and deliveries, a grid that
 * is collected is that of rolwyddac_sweep.
 *
 * A function returns 0, a number of the table in rolwyddac.h, or one of the two below; rolwyddac_term and rolwyddac_text know them all.
 * At any number but 0 nothing has changed. The calls of one run come one at a time; two runs share nothing.
 */
#ifndef ROLWYDDAC_RUN_H
#define ROLWYDDAC_RUN_H

#include "rolwyddac.h"

#ifdef __cplusplus
extern "C" {
#endif

enum {
  ROLWYDDAC_NO_MEMORY = 100,   /* there is not memory enough */
  ROLWYDDAC_NO_SAVED_RUN = 101 /* bytes that are not a saved run of this recipe, route and source */
};

/* A run, made by rolwyddac_run_make and ended by rolwyddac_run_free. */
typedef struct rolwyddac_run rolwyddac_run;

/* Writes the recipe of the fields to the front of space, which has ROLWYDDAC_MOST_RECIPE_BYTES, and its length to length: rolwyddac_write with
 * the tables as rolwyddac_read tells them. More entries than a table has are 2.
 * Numbers: those of rolwyddac_write but 9. */
uint32_t rolwyddac_encode(const rolwyddac_fields *fields, uint8_t space[ROLWYDDAC_MOST_RECIPE_BYTES], size_t *length);

/* Makes a run: copies recipe and source, makes areas of their lengths and a fresh start, and puts the run into run; null at any number
 * but 0. The route is 0 for direct passing, any other for indirect.
 * Numbers: those of rolwyddac_fresh, and 100. */
uint32_t rolwyddac_run_make(const uint8_t *encoded, size_t encoded_length, uint32_t route, const uint32_t *source,
                            size_t source_length, rolwyddac_run **run);

/* Gives one processor a turn: rolwyddac_turn.
 * Numbers: 11 to 13. */
uint32_t rolwyddac_run_turn(rolwyddac_run *run, uint32_t processor);

/* Delivers one message: rolwyddac_deliver.
 * Numbers: 11, 14. */
uint32_t rolwyddac_run_deliver(rolwyddac_run *run, uint32_t message);

/* Goes on to the end: processors take turns in rising order, and each message in flight is delivered when no turn can be taken.
 * Returns 0. */
uint32_t rolwyddac_run_finish(rolwyddac_run *run);

/* Writes the grid, once all processors have finished: rolwyddac_collect.
 * Numbers: 9, 15. */
uint32_t rolwyddac_run_collect(const rolwyddac_run *run, uint32_t *grid, size_t grid_length);

/* The lengths of the run's areas, its records and its status bytes, to be read; they are there until the run is freed or loaded. */
rolwyddac_areas rolwyddac_run_sizes(const rolwyddac_run *run);
const rolwyddac_progress *rolwyddac_run_progress(const rolwyddac_run *run);
const uint8_t *rolwyddac_run_status(const rolwyddac_run *run);

/* How many bytes a saved run has: the same at every time of the run. */
size_t rolwyddac_run_saved_length(const rolwyddac_run *run);

/* Writes the run to space: a mark and a version, route and lengths, recipe, source, the four areas, a check word; each word low byte first.
 * Numbers: 9 if space has not exactly that length. */
uint32_t rolwyddac_run_save(const rolwyddac_run *run, uint8_t *space, size_t space_length);

/* Puts the areas of a saved run into a run of the same recipe, route and source, which goes on from there.
 * Numbers: 101 if the bytes are cut, damaged, of another version, or of another recipe, route or source; 10 if the areas are not fit; 100. */
uint32_t rolwyddac_run_load(rolwyddac_run *run, const uint8_t *saved, size_t saved_length);

/* Frees the run; null is allowed. */
void rolwyddac_run_free(rolwyddac_run *run);

#ifdef __cplusplus
}
#endif

#endif

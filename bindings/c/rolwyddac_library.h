/* Rolwyddac as an installed library: its version, the limits as macros, the text of a number, the sizes of all areas.
 *
 * rolwyddac.h includes this header. What is declared here is plain C (library.c), small and tested, and no part of the
 * proof; the calls of rolwyddac.h are proved.
 */
#ifndef ROLWYDDAC_LIBRARY_H
#define ROLWYDDAC_LIBRARY_H

#include <stddef.h>
#include <stdint.h>

#ifdef __cplusplus
extern "C" {
#endif

/* The version of this header. A new call or a new number raises the minor version; a call that is given or lent other
 * things than before, or gives another number for the same, raises the major one, and with it the library's soname. */
#define ROLWYDDAC_VERSION_MAJOR 1
#define ROLWYDDAC_VERSION_MINOR 0
#define ROLWYDDAC_VERSION_PATCH 0
#define ROLWYDDAC_VERSION "1.0.0"

/* The limits of a recipe. */
#define ROLWYDDAC_RECORD_BYTES 16
#define ROLWYDDAC_LEAST_DIMENSIONS 2
#define ROLWYDDAC_MOST_DIMENSIONS 4
#define ROLWYDDAC_MOST_BOUNDS 4
#define ROLWYDDAC_MOST_DISTANCES 8
#define ROLWYDDAC_COMPONENTS 4
#define ROLWYDDAC_MOST_LENGTH 1024
#define ROLWYDDAC_MOST_TILE_LENGTH 1024
#define ROLWYDDAC_MOST_CELLS 16384
#define ROLWYDDAC_MOST_TILES 1024
#define ROLWYDDAC_MOST_PROCESSORS 64
#define ROLWYDDAC_MOST_SHIFT 31
#define ROLWYDDAC_MOST_RECIPE_BYTES 272

/* What no plan has more of: a tile has at most 7 directions, and a cell stands once in each at most. With these a caller
 * can have all areas in fixed room. */
#define ROLWYDDAC_MOST_MESSAGES (7 * ROLWYDDAC_MOST_TILES)
#define ROLWYDDAC_MOST_WORDS (7 * ROLWYDDAC_MOST_CELLS)

/* How many elements each area of a recipe's plan has. Where one is 0 a call still takes a pointer that is aligned and
 * not null, which it does not follow: allocate one element. */
typedef struct {
  size_t source;   /* words: the cells */
  size_t memories; /* words: cells times processors */
  size_t buffer;   /* words */
  size_t progress; /* records: the processors */
  size_t status;   /* bytes: the messages */
  size_t grid;     /* words: the cells */
  size_t engaged;  /* words: the processors */
} rolwyddac_areas;

/* Writes the sizes of all areas of the recipe's plan on the route to out.
 * Numbers: those of rolwyddac_summary. A refusal leaves out as it was. */
uint32_t rolwyddac_sizes(const uint8_t *encoded, size_t encoded_length, uint32_t route, rolwyddac_areas *out);

/* The term of a number and what it says, as in the table of rolwyddac.h: "early" and "collecting while a processor has tiles
 * left" for 15; "done" and "done" for 0; "other" and "a number that this library has no name for" for one that the
 * table does not have. Never null, and never freed. */
const char *rolwyddac_term(uint32_t number);
const char *rolwyddac_text(uint32_t number);

/* The version of the library that is linked, as ROLWYDDAC_VERSION. */
const char *rolwyddac_version(void);

#ifdef __cplusplus
}
#endif

#endif

/* Rolwyddac: a tiled sweep whose grid is, word for word, that of a single processor.
 *
 * Link with -lrolwyddac, or with the archive librolwyddac.a: bindings/library makes both, bindings/install installs them.
 * Version, limits, texts of the numbers and the sizes of all areas are in rolwyddac_library.h, which this header includes.
 *
 * Every call returns its number, alone or as the first field of a struct. 0 means done. Any other number is a refusal:
 * the first true line of the table below, in table order. No lent word has changed then, and every other field is 0.
 *
 *    1 ragged         the recipe is empty, or it or a file of soundings is no multiple of 16 bytes
 *    2 stray record   kind, order, count, unnamed byte, shift or bound not as the format has them
 *    3 length         some length is 0 or above 1,024
 *    4 too large      more than 16,384 cells
 *   18 too wide       all components of a distance of kind 4 fit a byte
 *   20 empty          no cell of the box is in the shape that the bounds leave
 *    5 distance       components all zero, the same as an earlier record's, or not zero beyond the last dimension
 *    6 tile           some tile length is 0, above 1,024, or smaller than some distance there
 *   16 spread order   the first dimension is not spread, or a spread one follows one that is not
 *   17 last spread    the last dimension is spread
 *    7 boards         more than 64 processors
 *    8 tiles          more than 1,024 tiles that hold a cell
 *   21 direct only    indirect passing asked for and the recipe has a bound
 *   23 no chart       a chart of a recipe that has not two dimensions, or with a cell size that is not 1 to 65,535
 *   26 damaged        bytes that are no packet, by their length, their first word or their check word
 *   27 stale          a packet of another recipe, route or run
 *    9 area           a lent area has not exactly its length
 *   22 off the box    a sounding, whether it counts or not, names a cell that the recipe's box does not have
 *   10 unfit          progress, status or engaged words not fit
 *   25 hours          a faulty window of some processor, or a minute above 10,079
 *   11 no such        office, processor or message number too high, or a message that the processor does not take
 *   24 closed         the processor is not open at that minute
 *   19 engaged        the processor has tiles left for this office and is held by the other
 *   12 waiting        the processor is to gather and a message due at its tile is not delivered
 *   13 finished       the processor has no tiles left
 *   14 no mail        delivery of a message that is not in flight, or taking in one that came before
 *   15 early          collecting while a processor has tiles left
 *
 * The recipe (`encoded`) is given to every call but the one that writes it. Beside it a call is lent these areas,
 * each a pointer and then the number of its elements (words, records or bytes, as the pointer's type says):
 *
 *    source     one word a cell
 *    memories   one word a cell for each processor, processor after processor
 *    buffer     one word a message word
 *    progress   one record a processor
 *    status     one byte a message: 0 unsent, 1 in flight, 2 delivered, 3 taken
 *    grid       one word a cell
 *    engaged    one word a processor: the office that holds it, 0 or 1, or 2 for none
 *    other      the other office's progress records
 *    hours      28 words a processor: 14 pairs of open and close, in minutes of the week
 *
 * The calls named rolwyddac_part_.. are for one processor that has memory for its own part alone, and are lent other areas; these are
 * told where the calls stand. They test the processor's number before the lengths, which are that processor's: 11 before 9.
 *
 * Calls that work on messages are told the route by which these travel, a word: 0 is direct passing, each message straight
 * to the processor of its taking tile; any other is indirect passing, between neighbours only, one spread dimension at
 * a time and the lowest first. The routes have messages of their own, and so other lengths of buffer and status. All
 * calls of a run are given the same route. A recipe with bounds has direct passing alone (21).
 *
 * Bounds cut a shape out of the box. Cells have the box's numbers, and source, memories and grid the box's lengths; a cell
 * outside the shape reads as the boundary value, is never calculated or sent, and has that value in every grid. Only tiles
 * that hold a cell of the shape are numbered, in the order of their places. A message is taken by the first of them at or
 * after the tile one step ahead in its direction, in that tile's chain (the tiles with its spread components).
 *
 * Two offices with the same recipe and route can share the processors. Each has a source and areas of its own; the words
 * engaged are lent to both. The calls named rolwyddac_tenant_.. are told the office's number, 0 or 1, and are lent the
 * other's records only to read. A number above 1 is 11, in these calls before 10, which is tested over all of this: an
 * engaged word is at most 2, the stage of the office that holds the processor is 1 or 2, every other is 0.
 *
 * Where processors may run only at some hours, the turns with hours stand in place of the others: they are lent the table
 * hours and carry the minute of the week, 0 to 10,079. The open minute is in the window, the close minute is not; open is
 * below close, and close at most 10,080; a pair of zeros is no window. Mail is delivered at any hour.
 *
 * What C must see to, for no call can test it: each pointer is aligned and not null, even where the length
 * is 0 (a call does not follow it then: allocate one element, for malloc(0) may be null); it points to at least as many
 * elements as the length says; areas do not overlap. Two calls at the same time must not share an area that one of them
 * may write. A call keeps no pointer and no memory of its own.
 */
#ifndef ROLWYDDAC_H
#define ROLWYDDAC_H

#include <stddef.h>
#include <stdint.h>

#include "rolwyddac_library.h"

#ifdef __cplusplus
extern "C" {
#endif

enum {
  ROLWYDDAC_DONE = 0,
  ROLWYDDAC_RAGGED = 1,
  ROLWYDDAC_STRAY_RECORD = 2,
  ROLWYDDAC_LENGTH = 3,
  ROLWYDDAC_TOO_LARGE = 4,
  ROLWYDDAC_DISTANCE = 5,
  ROLWYDDAC_TILE = 6,
  ROLWYDDAC_BOARDS = 7,
  ROLWYDDAC_TILES = 8,
  ROLWYDDAC_AREA = 9,
  ROLWYDDAC_UNFIT = 10,
  ROLWYDDAC_NO_SUCH = 11,
  ROLWYDDAC_WAITING = 12,
  ROLWYDDAC_FINISHED = 13,
  ROLWYDDAC_NO_MAIL = 14,
  ROLWYDDAC_EARLY = 15,
  ROLWYDDAC_SPREAD_ORDER = 16,
  ROLWYDDAC_LAST_SPREAD = 17,
  ROLWYDDAC_TOO_WIDE = 18,
  ROLWYDDAC_ENGAGED = 19,
  ROLWYDDAC_EMPTY = 20,
  ROLWYDDAC_DIRECT_ONLY = 21,
  ROLWYDDAC_OFF_THE_BOX = 22,
  ROLWYDDAC_NO_CHART = 23,
  ROLWYDDAC_CLOSED = 24,
  ROLWYDDAC_HOURS = 25,
  ROLWYDDAC_DAMAGED = 26,
  ROLWYDDAC_STALE = 27
};

/* Bytes of the longest chart: 16,384 cells of ten digits, each with a space or a line feed behind it, under a header of
 * 98 bytes. */
#define ROLWYDDAC_LONGEST_CHART 180322

/* Bytes of the longest packet, and its words. An item of up to as many chunks, of so many words each, can be cut into packets. */
#define ROLWYDDAC_LONGEST_PACKET 1200
#define ROLWYDDAC_PACKET_WORDS 285
#define ROLWYDDAC_MOST_CHUNKS 64

/* A packet's kind where it brings a chunk of a message; all other kinds are the program's own. */
#define ROLWYDDAC_KIND_MESSAGE 1

/* How far a processor is: tiles finished, the stage of its current tile (0 gather, 1 calculate, 2 send) and how
 * many messages of that tile are sent. */
typedef struct {
  uint32_t finished;
  uint32_t stage;
  uint32_t sent;
} rolwyddac_progress;

/* The routes. */
enum { ROLWYDDAC_DIRECT = 0, ROLWYDDAC_INDIRECT = 1 };

/* An engaged word of a processor that no office holds. */
enum { ROLWYDDAC_FREE = 2 };

/* Places in a message's row of what rolwyddac_messages writes, and a row's length: the first five are those of rolwyddac_message. */
enum {
  ROLWYDDAC_ROW_SENDING_TILE = 0,
  ROLWYDDAC_ROW_TAKING_TILE = 1,
  ROLWYDDAC_ROW_SENDING_PROCESSOR = 2,
  ROLWYDDAC_ROW_TAKING_PROCESSOR = 3,
  ROLWYDDAC_ROW_WORDS = 4,
  ROLWYDDAC_ROW_OFFSET = 5,
  ROLWYDDAC_ROW_LENGTH = 6
};

/* Places in a message's row of what rolwyddac_part_messages writes, and a row's length. */
enum {
  ROLWYDDAC_PART_ROW_MESSAGE = 0,
  ROLWYDDAC_PART_ROW_SENDING_TILE = 1,
  ROLWYDDAC_PART_ROW_TAKING_TILE = 2,
  ROLWYDDAC_PART_ROW_SENDING_PROCESSOR = 3,
  ROLWYDDAC_PART_ROW_TAKING_PROCESSOR = 4,
  ROLWYDDAC_PART_ROW_WORDS = 5,
  ROLWYDDAC_PART_ROW_PLACE = 6,
  ROLWYDDAC_PART_ROW_LENGTH = 7
};

/* The totals of a plan. */
typedef struct {
  uint32_t number;
  uint32_t tiles;    /* that hold a cell */
  uint32_t messages; /* bytes of status */
  uint32_t words;    /* of all messages: words of buffer */
  uint32_t steps;    /* turns and deliveries of a whole run */
} rolwyddac_figures;

/* Tells the plan's totals on the route. rolwyddac_read tells what the recipe itself has, rolwyddac_sizes the lengths of all areas.
 * Numbers: 1 to 8, 16 to 18, 20, 21. */
rolwyddac_figures rolwyddac_summary(const uint8_t *encoded, size_t encoded_length, uint32_t route);

/* The line of one message. */
typedef struct {
  uint32_t number;
  uint32_t sender; /* the tile that sends it */
  uint32_t taker;  /* the tile that takes it */
  uint32_t from;   /* the sending tile's processor */
  uint32_t to;     /* the taking tile's processor */
  uint32_t words;
} rolwyddac_message_line;

/* Tells the line of a message of the route: sending tile, taking tile, their processors, words. On the indirect route the words are
 * those of the sending tile's own cells and of those it passes on.
 * Numbers: 1 to 8, 11, 16 to 18, 20, 21. */
rolwyddac_message_line rolwyddac_message(const uint8_t *encoded, size_t encoded_length, uint32_t route, uint32_t message);

/* The hops of one message. */
typedef struct {
  uint32_t number;
  uint32_t hops;
} rolwyddac_hop_count;

/* Tells the hops that a message of the direct route makes on the indirect one. There is no hop in a dimension with one
 * processor. With bounds they are told too, by the message's direction.
 * Numbers: 1 to 8, 11, 16 to 18, 20. */
rolwyddac_hop_count rolwyddac_hops(const uint8_t *encoded, size_t encoded_length, uint32_t message);

/* Sweeps the whole nest in index order on one processor and writes each cell's value to grid, outside the shape the
 * boundary value.
 * Numbers: 1 to 9, 16 to 18, 20. A refusal leaves grid as it was. */
uint32_t rolwyddac_sweep(const uint8_t *encoded, size_t encoded_length, const uint32_t *source, size_t source_length,
                         uint32_t *grid, size_t grid_length);

/* Makes a fresh start: writes zero to memories, buffer, progress and status, whatever they held.
 * Numbers: 1 to 9, 16 to 18, 20, 21. A refusal leaves all four as they were. */
uint32_t rolwyddac_fresh(const uint8_t *encoded, size_t encoded_length, uint32_t route, const uint32_t *source,
                         size_t source_length, uint32_t *memories, size_t memories_length, uint32_t *buffer,
                         size_t buffer_length, rolwyddac_progress *progress, size_t progress_length, uint8_t *status,
                         size_t status_length);

/* Gives one processor a turn: it does the stage at which its record stands, once. Gather unpacks the messages
 * due at its tile into its memory and marks them taken; calculate gives the tile's cells their values there;
 * send packs the next message into the buffer and marks it in flight.
 * Numbers: 1 to 13, 16 to 18, 20, 21. A refusal leaves memories, buffer, progress and status as they were. */
uint32_t rolwyddac_turn(const uint8_t *encoded, size_t encoded_length, uint32_t route, const uint32_t *source,
                        size_t source_length, uint32_t *memories, size_t memories_length, uint32_t *buffer,
                        size_t buffer_length, rolwyddac_progress *progress, size_t progress_length, uint8_t *status,
                        size_t status_length, uint32_t processor);

/* Delivers one message: its status goes from 1 to 2. Nothing else is written.
 * Numbers: 1 to 11, 14, 16 to 18, 20, 21. A refusal leaves status as it was. */
uint32_t rolwyddac_deliver(const uint8_t *encoded, size_t encoded_length, uint32_t route, const uint32_t *source,
                           size_t source_length, const uint32_t *memories, size_t memories_length,
                           const uint32_t *buffer, size_t buffer_length, const rolwyddac_progress *progress,
                           size_t progress_length, uint8_t *status, size_t status_length, uint32_t message);

/* Copies each cell to grid from the memory of its tile's processor, once all processors have finished; a cell outside the
 * shape gets the boundary value. Where it gives 0 after a fresh start that gave 0 and then any turns and deliveries, all of
 * these and this call given the same recipe, route and source and lent the areas as the last left them, grid is what
 * rolwyddac_sweep writes for that recipe and source.
 * Numbers: 1 to 10, 15 to 18, 20, 21. A refusal leaves grid as it was. */
uint32_t rolwyddac_collect(const uint8_t *encoded, size_t encoded_length, uint32_t route, const uint32_t *source,
                           size_t source_length, const uint32_t *memories, size_t memories_length,
                           const uint32_t *buffer, size_t buffer_length, const rolwyddac_progress *progress,
                           size_t progress_length, const uint8_t *status, size_t status_length, uint32_t *grid,
                           size_t grid_length);

/* How many rounds a run had. */
typedef struct {
  uint32_t number;
  uint32_t rounds;
} rolwyddac_driven;

/* Drives a whole run by rounds, on the direct route: makes a fresh start and goes on to the run's end. In a round every
 * processor that could gather at the round's start does its whole tile, then each message in flight is delivered. Tells the
 * rounds, the greatest that rolwyddac_rounds_of writes. No other plan of whole tiles has fewer. Collecting then gives the sweep.
 * Numbers: 1 to 9, 16 to 18, 20. A refusal leaves memories, buffer, progress and status as they were. */
rolwyddac_driven rolwyddac_rounds(const uint8_t *encoded, size_t encoded_length, const uint32_t *source,
                                  size_t source_length, uint32_t *memories, size_t memories_length, uint32_t *buffer,
                                  size_t buffer_length, rolwyddac_progress *progress, size_t progress_length,
                                  uint8_t *status, size_t status_length);

/* Writes each tile's round to rounds, one word a tile: one more than the latest round among the tiles that it waits for, its
 * processor's previous tile and those that send to it; 1 where there are none. Round 1 is the first.
 * Numbers: 1 to 8, 16 to 18, 20; 9 if rounds has not one word a tile. A refusal leaves rounds as it was. */
uint32_t rolwyddac_rounds_of(const uint8_t *encoded, size_t encoded_length, uint32_t *rounds, size_t rounds_length);

/* Makes a fresh start of both offices together: writes zero to the memories, buffer, progress and status of each, and 2 to
 * every word of engaged, whatever they held.
 * Numbers: 1 to 9, 16 to 18, 20, 21. A refusal leaves all nine as they were. */
uint32_t rolwyddac_fresh_both(const uint8_t *encoded, size_t encoded_length, uint32_t route,
                              const uint32_t *first_source, size_t first_source_length, uint32_t *first_memories,
                              size_t first_memories_length, uint32_t *first_buffer, size_t first_buffer_length,
                              rolwyddac_progress *first_progress, size_t first_progress_length, uint8_t *first_status,
                              size_t first_status_length, const uint32_t *second_source, size_t second_source_length,
                              uint32_t *second_memories, size_t second_memories_length, uint32_t *second_buffer,
                              size_t second_buffer_length, rolwyddac_progress *second_progress,
                              size_t second_progress_length, uint8_t *second_status, size_t second_status_length,
                              uint32_t *engaged, size_t engaged_length);

/* Gives one processor a turn for an office, as rolwyddac_turn does on its areas. A gather engages the processor to the
 * office, the last step of that tile frees it.
 * Numbers: 1 to 13, 16 to 21. A refusal leaves memories, buffer, progress, status and engaged as they were. */
uint32_t rolwyddac_tenant_turn(const uint8_t *encoded, size_t encoded_length, uint32_t route, const uint32_t *source,
                               size_t source_length, uint32_t *memories, size_t memories_length, uint32_t *buffer,
                               size_t buffer_length, rolwyddac_progress *progress, size_t progress_length,
                               uint8_t *status, size_t status_length, uint32_t *engaged, size_t engaged_length,
                               const rolwyddac_progress *other, size_t other_length, uint32_t tenant,
                               uint32_t processor);

/* Delivers one message of an office: its status goes from 1 to 2. Nothing else is written.
 * Numbers: 1 to 11, 14, 16 to 18, 20, 21. A refusal leaves status as it was. */
uint32_t rolwyddac_tenant_deliver(const uint8_t *encoded, size_t encoded_length, uint32_t route, const uint32_t *source,
                                  size_t source_length, const uint32_t *memories, size_t memories_length,
                                  const uint32_t *buffer, size_t buffer_length, const rolwyddac_progress *progress,
                                  size_t progress_length, uint8_t *status, size_t status_length,
                                  const uint32_t *engaged, size_t engaged_length, const rolwyddac_progress *other,
                                  size_t other_length, uint32_t tenant, uint32_t message);

/* Copies each cell to grid from the office's memory of its tile's processor, once all processors have finished for it.
 * Where it gives 0 after a fresh start of both offices that gave 0 and then any turns and deliveries of both, all given the
 * same recipe and route and each its office's source, and lent the areas as the last left them, grid is what
 * rolwyddac_sweep writes for that recipe and the office's source.
 * Numbers: 1 to 11, 15 to 18, 20, 21. A refusal leaves grid as it was. */
uint32_t rolwyddac_tenant_collect(const uint8_t *encoded, size_t encoded_length, uint32_t route, const uint32_t *source,
                                  size_t source_length, const uint32_t *memories, size_t memories_length,
                                  const uint32_t *buffer, size_t buffer_length, const rolwyddac_progress *progress,
                                  size_t progress_length, const uint8_t *status, size_t status_length,
                                  const uint32_t *engaged, size_t engaged_length, const rolwyddac_progress *other,
                                  size_t other_length, uint32_t tenant, uint32_t *grid, size_t grid_length);

/* A processor's part of an office's memories. */
typedef struct {
  uint32_t number;
  uint32_t begin;  /* its first word's place in the memories */
  uint32_t length; /* its words */
} rolwyddac_viewed;

/* A view of a processor's memory, lent the memories of both offices: tells where the processor's part begins in the named
 * office's memories and how many words it has. The same on either route. At a refusal there is no part.
 * Numbers: 1 to 8, 16 to 18, 20; 9 if memories have not their length; 11. */
rolwyddac_viewed rolwyddac_view(const uint8_t *encoded, size_t encoded_length, const uint32_t *first, size_t first_length,
                                const uint32_t *second, size_t second_length, uint32_t tenant, uint32_t processor);

/* Fills source from a file of soundings, records of 16 bytes: cell number, survey day, survey number and depth, each a
 * word, least byte first. A cell gets the depth of its record with the greatest day; of these, with the greatest survey
 * number; of these, the latest in the file. A cell that no record names gets value. An empty file is allowed. Days and
 * survey numbers are compared without a sign. The call has some 200 kilobytes of its own on the stack.
 * Numbers: 1 to 9, 16 to 18, 20, 22. A refusal leaves source as it was. */
uint32_t rolwyddac_soundings(const uint8_t *encoded, size_t encoded_length, const uint8_t *file, size_t file_length,
                             uint32_t value, uint32_t *source, size_t source_length);

/* How long a grid's text is. */
typedef struct {
  uint32_t number;
  uint32_t length; /* in bytes */
} rolwyddac_chart_text;

/* Writes the grid's text for the charting desk to the front of space, and tells its length. The text is an Esri ASCII grid of
 * whole numbers: ncols, nrows, xllcorner (x), yllcorner (y), cellsize and NODATA_value lines, then a line for each row,
 * first row first; it is for recipes of two dimensions. Bytes of space behind the text stay as they were. No text is longer
 * than ROLWYDDAC_LONGEST_CHART. A grid that has not one word a cell and a space shorter than the text: each is 9.
 * Numbers: 1 to 9, 16 to 18, 20, 23. A refusal leaves space as it was. */
rolwyddac_chart_text rolwyddac_chart(const uint8_t *encoded, size_t encoded_length, const uint32_t *grid,
                                     size_t grid_length, int32_t x, int32_t y, uint32_t cell_size, uint8_t *space,
                                     size_t space_length);

/* Tells the length of the text that rolwyddac_chart writes.
 * Numbers: 1 to 8, 16 to 18, 20, 23; 9 if grid has not one word a cell. */
rolwyddac_chart_text rolwyddac_chart_length(const uint8_t *encoded, size_t encoded_length, const uint32_t *grid,
                                            size_t grid_length, int32_t x, int32_t y, uint32_t cell_size);

/* Gives one processor a turn at a minute of the week, as rolwyddac_turn does, if it is open then. A faulty pair of any
 * processor is 25.
 * Numbers: 1 to 13, 16 to 18, 20, 21, 24, 25. A refusal leaves memories, buffer, progress and status as they were. */
uint32_t rolwyddac_turn_at(const uint8_t *encoded, size_t encoded_length, uint32_t route, const uint32_t *source,
                           size_t source_length, uint32_t *memories, size_t memories_length, uint32_t *buffer,
                           size_t buffer_length, rolwyddac_progress *progress, size_t progress_length,
                           uint8_t *status, size_t status_length, const uint32_t *hours, size_t hours_length,
                           uint32_t minute, uint32_t processor);

/* Gives one processor a turn for an office at a minute of the week, as rolwyddac_tenant_turn does, if it is open then.
 * Numbers: 1 to 13, 16 to 21, 24, 25. A refusal leaves memories, buffer, progress, status and engaged as they were. */
uint32_t rolwyddac_tenant_turn_at(const uint8_t *encoded, size_t encoded_length, uint32_t route,
                                  const uint32_t *source, size_t source_length, uint32_t *memories,
                                  size_t memories_length, uint32_t *buffer, size_t buffer_length,
                                  rolwyddac_progress *progress, size_t progress_length, uint8_t *status,
                                  size_t status_length, uint32_t *engaged, size_t engaged_length,
                                  const rolwyddac_progress *other, size_t other_length, const uint32_t *hours,
                                  size_t hours_length, uint32_t minute, uint32_t tenant, uint32_t processor);

/* When a processor next opens. */
typedef struct {
  uint32_t number;
  uint32_t opens;   /* 1, or 0 where it never opens */
  uint32_t minutes; /* until then, 0 while it is open, and 0 where it never opens */
} rolwyddac_opening;

/* Tells when a processor next opens, lent only the table of hours; the minutes go past the end of the week to the same table.
 * Numbers: 1 to 8, 16 to 18, 20; 9 if hours has not its length; 25; 11. */
rolwyddac_opening rolwyddac_opens(const uint8_t *encoded, size_t encoded_length, const uint32_t *hours,
                                  size_t hours_length, uint32_t minute, uint32_t processor);

/* For processors that share no memory each keeps all areas to itself, and a transport carries the messages: four calls serve it.
 * A message that its sender's turn has put in flight is posted by rolwyddac_deliver on the sender's own areas; its words are
 * those from ROLWYDDAC_ROW_OFFSET on in the sender's buffer, and no later call of the run writes there. rolwyddac_take_in brings
 * it into the areas of its taker. */

/* Writes a row of six words for each message of the route to out, in the order of their numbers: the five of
 * rolwyddac_message, then where the message's words begin in the buffer.
 * Numbers: 1 to 8, 16 to 18, 20, 21; 9 if out has not six words a message. A refusal leaves out as it was. */
uint32_t rolwyddac_messages(const uint8_t *encoded, size_t encoded_length, uint32_t route, uint32_t *out,
                            size_t out_length);

/* Writes one word for each cell of the box to out: the processor of its tile; for a cell outside the shape, which is in no
 * tile, the number of processors. The same on either route.
 * Numbers: 1 to 8, 16 to 18, 20; 9 if out has not one word a cell. A refusal leaves out as it was. */
uint32_t rolwyddac_owners(const uint8_t *encoded, size_t encoded_length, uint32_t *out, size_t out_length);

/* Where a processor stands. */
typedef struct {
  uint32_t number;
  uint32_t tile;
} rolwyddac_waiting;

/* What a processor waits for, lent only the records and the status bytes: tells the tile at which it stands, and writes one byte a
 * message to marks: 1 where the processor is to gather and the message is due at that tile and not delivered, else 0. Some mark
 * is 1 exactly where rolwyddac_turn would give 12. A processor without tiles left is 13.
 * Numbers: 1 to 11, 13, 16 to 18, 20, 21. A refusal leaves marks as they were. */
rolwyddac_waiting rolwyddac_awaited(const uint8_t *encoded, size_t encoded_length, uint32_t route,
                                    const rolwyddac_progress *progress, size_t progress_length, const uint8_t *status,
                                    size_t status_length, uint32_t processor, uint8_t *marks, size_t marks_length);

/* Takes a message in at its taker, whose own areas are lent: puts the words into the message's place in the buffer, and its
 * status goes from 0 to 2. Nothing else is written.
 * Words that are not as many as the message has are 9; a number too high, or a message that this processor does not take, is
 * 11; a message whose status is not 0, as one that came before, is 14.
 * Numbers: 1 to 11, 14, 16 to 18, 20, 21. A refusal leaves buffer and status as they were. */
uint32_t rolwyddac_take_in(const uint8_t *encoded, size_t encoded_length, uint32_t route, const uint32_t *source,
                           size_t source_length, const uint32_t *memories, size_t memories_length, uint32_t *buffer,
                           size_t buffer_length, const rolwyddac_progress *progress, size_t progress_length,
                           uint8_t *status, size_t status_length, uint32_t processor, uint32_t message,
                           const uint32_t *words, size_t words_length);

/* What goes over a network that loses, repeats, reorders, damages and delays: packets of at most ROLWYDDAC_LONGEST_PACKET bytes. A packet
 * says of which recipe, route and run it is, by which life of which board it was sent and to which one, and it has a check word. What is
 * longer than a packet goes in chunks, and a mask of 64 bits says which are there. crates/packets/specs/Packet.antt has the format. */

/* What recipe and route are known by on the wire. */
typedef struct {
  uint32_t number; /* always 0 */
  uint64_t fingerprint;
} rolwyddac_mark;

/* Tells what recipe and route are known by on the wire: of any bytes, so nothing is refused. Numbers: none. */
rolwyddac_mark rolwyddac_fingerprint(const uint8_t *encoded, size_t encoded_length, uint32_t route);

/* What was written: so many bytes of the space, from the first on. */
typedef struct {
  uint32_t number;
  uint32_t length;
} rolwyddac_written;

/* Writes a chunk of an item as a packet. words is the whole item, at most 18,240 words; one without words has one chunk without words.
 * The space has ROLWYDDAC_LONGEST_PACKET bytes, and those behind the packet stay as they were.
 * Numbers: 9, 11. A refusal leaves the space as it was. */
rolwyddac_written rolwyddac_packet(uint64_t fingerprint, uint64_t run, uint64_t life, uint32_t kind, uint32_t sender,
                                   uint32_t taker, uint32_t item, uint32_t chunk, const uint32_t *words,
                                   size_t words_length, uint8_t *space, size_t space_length);

/* What a packet says. */
typedef struct {
  uint32_t number;
  uint32_t kind;
  uint32_t sender;
  uint32_t taker;
  uint32_t item;
  uint32_t chunk;
  uint32_t chunks; /* in all */
  uint32_t count;  /* of its words */
  uint64_t life;
} rolwyddac_packet_line;

/* Tells what bytes say that came, whatever they are, for this fingerprint and run, and writes their words from the first place of words
 * on; those behind stay as they were. ROLWYDDAC_PACKET_WORDS are enough for every packet.
 * Numbers: 9, 26, 27. A refusal leaves words as they were. */
rolwyddac_packet_line rolwyddac_packet_read(uint64_t fingerprint, uint64_t run, const uint8_t *packet,
                                            size_t packet_length, uint32_t *words, size_t words_length);

/* What became of a chunk. */
typedef struct {
  uint32_t number;
  uint32_t whole; /* 1 where all chunks of the item are there now */
  uint64_t mask;  /* those that are there now; at a refusal the mask that was given */
} rolwyddac_taken;

/* Puts a chunk that came to its place in the area of its item, which is as long as the item. A chunk that is there already by the mask
 * changes nothing. The mask is 0 where nothing came yet.
 * Numbers: 9, 11. A refusal leaves the area as it was. */
rolwyddac_taken rolwyddac_chunk(uint32_t chunk, uint32_t chunks, const uint32_t *words, size_t words_length,
                                uint32_t *area, size_t area_length, uint64_t mask);

/* Writes a chunk of a message as a packet of this run and life, out of the buffer of the processor that sends it. The message is posted here,
 * so that its status is 2 or more: rolwyddac_deliver posts it, and this call may be made again whenever its taker asks for it.
 * Numbers: 1 to 9, 11, 14, 16 to 18, 20, 21. A refusal leaves the space as it was. */
rolwyddac_written rolwyddac_send(const uint8_t *encoded, size_t encoded_length, uint32_t route, uint64_t run,
                                 uint64_t life, const uint32_t *buffer, size_t buffer_length, const uint8_t *status,
                                 size_t status_length, uint32_t processor, uint32_t message, uint32_t chunk,
                                 uint8_t *space, size_t space_length);

/* What became of bytes that came for a processor. */
typedef struct {
  uint32_t number;
  uint32_t whole;   /* 1 where the message is whole with them, and was taken in */
  uint32_t message; /* of which they brought a chunk */
} rolwyddac_received;

/* Takes bytes as they came for a processor, whose own areas are lent: a chunk of a message goes to its place in parts, which has the
 * buffer's length, and is marked in masks, one for each message and 0 at a fresh start. Once the message is whole, and only then, it is
 * taken in as by rolwyddac_take_in. Another kind, sender, taker or chunk than a message of this processor has is 11.
 * Numbers: 1 to 11, 14, 16 to 18, 20, 21, 26, 27. A refusal leaves all areas as they were. */
rolwyddac_received rolwyddac_receive(const uint8_t *encoded, size_t encoded_length, uint32_t route, uint64_t run,
                                     const uint32_t *source, size_t source_length, const uint32_t *memories,
                                     size_t memories_length, uint32_t *buffer, size_t buffer_length,
                                     const rolwyddac_progress *progress, size_t progress_length, uint8_t *status,
                                     size_t status_length, uint32_t processor, const uint8_t *packet,
                                     size_t packet_length, uint32_t *parts, size_t parts_length, uint64_t *masks,
                                     size_t masks_length);

/* For processors that share no memory and have room for their own part alone seven calls stand in place of the others. What
 * one processor is lent grows with its own cells, not with the box:
 *
 *    source     one word for each cell of its tiles, in index order
 *    memory     one word for each cell that it keeps, in index order: those of its tiles, and those that a message to one of its tiles brings
 *    mail       the words of the messages that its tiles send or take, one message after the other in the order of their numbers
 *    progress   one record, its own
 *    marks      one byte for each of these messages, in that order: 0 unsent, 1 in flight, 2 delivered, 3 taken
 *
 * rolwyddac_part_sizes tells their lengths, rolwyddac_part_messages which messages they are. Each call gives the number, and leaves the words of
 * the part, that the call on all areas would: rolwyddac_fresh, rolwyddac_turn, rolwyddac_deliver for a post and rolwyddac_take_in for an
 * arrival. While one runs it has up to some 180 kilobytes of its own on the stack. */

/* How long the areas of a processor's part are. */
typedef struct {
  uint32_t number;
  uint32_t cells;    /* of its tiles: words of source */
  uint32_t kept;     /* cells that it keeps: words of memory */
  uint32_t words;    /* of the messages that it handles: words of mail */
  uint32_t messages; /* that it handles: bytes of marks, and rows of rolwyddac_part_messages */
} rolwyddac_part_lengths;

/* Tells how long the areas of the processor's part are.
 * Numbers: 1 to 8, 11, 16 to 18, 20, 21. */
rolwyddac_part_lengths rolwyddac_part_sizes(const uint8_t *encoded, size_t encoded_length, uint32_t route,
                                            uint32_t processor);

/* Writes a row of seven words for each message that the processor handles to out, in the order of their numbers: its number, then
 * the five of rolwyddac_message, then where its words begin in the processor's mail.
 * Numbers: 1 to 8, 16 to 18, 20, 21; 11; 9 if out has not seven words a message. A refusal leaves out as it was. */
uint32_t rolwyddac_part_messages(const uint8_t *encoded, size_t encoded_length, uint32_t route, uint32_t processor,
                                 uint32_t *out, size_t out_length);

/* Makes the processor's fresh start: writes zero to memory, mail, progress and marks, whatever they held.
 * Numbers: 1 to 9, 11, 16 to 18, 20, 21. A refusal leaves all four as they were. */
uint32_t rolwyddac_part_fresh(const uint8_t *encoded, size_t encoded_length, uint32_t route, uint32_t *memory,
                              size_t memory_length, uint32_t *mail, size_t mail_length, rolwyddac_progress *progress,
                              size_t progress_length, uint8_t *marks, size_t marks_length, uint32_t processor);

/* Gives the processor a turn: it does the stage at which its record stands, once, as rolwyddac_turn does.
 * Numbers: 1 to 13, 16 to 18, 20, 21. A refusal leaves memory, mail, progress and marks as they were. */
uint32_t rolwyddac_part_turn(const uint8_t *encoded, size_t encoded_length, uint32_t route, const uint32_t *source,
                             size_t source_length, uint32_t *memory, size_t memory_length, uint32_t *mail,
                             size_t mail_length, rolwyddac_progress *progress, size_t progress_length, uint8_t *marks,
                             size_t marks_length, uint32_t processor);

/* Posts a message that a turn has put in flight: its mark goes from 1 to 2, and it is the transport's. Its words are those from
 * ROLWYDDAC_PART_ROW_PLACE on in the mail, and no later call of the run writes there. Nothing else is written. A message that the
 * processor does not handle has no mark here, and is 14.
 * Numbers: 1 to 11, 14, 16 to 18, 20, 21. A refusal leaves marks as they were. */
uint32_t rolwyddac_part_post(const uint8_t *encoded, size_t encoded_length, uint32_t route, const uint32_t *memory,
                             size_t memory_length, const uint32_t *mail, size_t mail_length,
                             const rolwyddac_progress *progress, size_t progress_length, uint8_t *marks,
                             size_t marks_length, uint32_t processor, uint32_t message);

/* A message arrives at its taker: puts the words into its place in the mail, and its mark goes from 0 to 2. Nothing else is written.
 * Words that are not as many as the message has are 9; a number too high, or a message that this processor does not take, is
 * 11; a message whose mark is not 0, as one that came before, is 14.
 * Numbers: 1 to 11, 14, 16 to 18, 20, 21. A refusal leaves mail and marks as they were. */
uint32_t rolwyddac_part_arrive(const uint8_t *encoded, size_t encoded_length, uint32_t route, const uint32_t *memory,
                               size_t memory_length, uint32_t *mail, size_t mail_length,
                               const rolwyddac_progress *progress, size_t progress_length, uint8_t *marks,
                               size_t marks_length, uint32_t processor, uint32_t message, const uint32_t *words,
                               size_t words_length);

/* Puts the processor's part into a grid of all cells, once it has finished: the words of its tiles' cells from its memory, and the
 * boundary value where a cell is outside the shape. Every other word of grid is as before, so that the grid is whole once each
 * processor's memory and record were put there, in any order; it is then what rolwyddac_sweep writes, where all calls of each
 * processor since its fresh start were these, and each message posted arrived with the words that its sender's mail had.
 * Numbers: 1 to 11, 15 to 18, 20, 21. A refusal leaves grid as it was. */
uint32_t rolwyddac_part_collect(const uint8_t *encoded, size_t encoded_length, uint32_t route, const uint32_t *memory,
                                size_t memory_length, const rolwyddac_progress *progress, size_t progress_length,
                                uint32_t processor, uint32_t *grid, size_t grid_length);

/* The fields of a recipe, as rolwyddac_write takes them. Of each table the first entries count, as many as is said, and the
 * rest are 0. */
typedef struct {
  uint32_t number;
  uint32_t dimensions;     /* entries of lengths, tiling and counts */
  uint32_t distances;      /* entries of weights; four times as many of components */
  uint32_t bounds;         /* entries of sides, bounded, earlier, slopes and offsets */
  uint32_t boundary;       /* what a cell outside reads as */
  uint16_t lengths[4];     /* cells along each dimension */
  uint16_t tiling[4];      /* tile lengths */
  uint16_t counts[4];      /* processors, 0 where a dimension is not spread */
  uint16_t components[32]; /* four a distance */
  uint16_t weights[8];
  int16_t offsets[4];
  uint8_t sides[4];   /* 0 for lower, 1 for upper */
  uint8_t bounded[4]; /* the dimension bounded, counted from 0 */
  uint8_t earlier[4]; /* an earlier dimension */
  int8_t slopes[4];   /* -1, 0 or 1 */
  uint8_t shift;
} rolwyddac_fields;

/* Tells the fields of a recipe: rolwyddac_write makes the same bytes of them.
 * Numbers: 1 to 8, 16 to 18, 20. */
rolwyddac_fields rolwyddac_read(const uint8_t *encoded, size_t encoded_length);

/* Writes the recipe of the fields to space: lengths, tiling (tile lengths) and counts (processor counts) have one
 * number a dimension; components has four numbers a distance, zero beyond the last dimension, and weights one. The
 * bounds' five lists have one number a bound, none where there is none: 0 for lower or 1 for upper, the dimension
 * bounded, counted from 0, an earlier dimension, the slope (-1, 0 or 1) and the offset.
 * The recipe has 16 bytes for each dimension, bound and distance, and 16 more. What was written is accepted and reads
 * back to the fields given. What is refused has the number that reading it would have; lists of other lengths stand
 * in no recipe and are 2. A distance with a component above 255 is written with kind 4, every other with kind 2.
 * Numbers: 2 to 8, 16, 17, 20; 9 if space has not exactly the recipe's length. A refusal leaves space as it was. */
uint32_t rolwyddac_write(const uint16_t *lengths, size_t lengths_length, const uint16_t *tiling, size_t tiling_length,
                         const uint16_t *counts, size_t counts_length, const uint16_t *components,
                         size_t components_length, const uint16_t *weights, size_t weights_length,
                         const uint8_t *sides, size_t sides_length, const uint8_t *bounded, size_t bounded_length,
                         const uint8_t *earlier, size_t earlier_length, const int8_t *slopes, size_t slopes_length,
                         const int16_t *offsets, size_t offsets_length, uint8_t shift, uint32_t boundary,
                         uint8_t *space, size_t space_length);

#ifdef __cplusplus
}
#endif

#endif

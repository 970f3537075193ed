#define _POSIX_C_SOURCE 200809L
#include "board.h"

#include <inttypes.h>
#include <stdbool.h>
#include <stdlib.h>

#include "clock.h"
#include "join.h"
#include "outbox.h"
#include "packet.h"
#include "tell.h"
#include "work.h"

struct peer {
  bool finished; /* it has said farewell */
  bool joined;   /* board 0 has its part */
  double heard;  /* when it was last, by the time that this board has waited */
};

struct board {
  const struct options *options;
  const struct plan *plan;
  struct transport *transport;
  uint32_t me;
  struct areas areas;
  struct areas *joined;
  struct outbox outbox;
  struct peer *peers; /* one a board; its own is not used */
  uint32_t finished;  /* peers that are */
  uint64_t taken;     /* messages taken in */
  uint8_t *marks;     /* room for one byte a message */
  double said;        /* when it last said that it is there */
  struct waited waited;
  uint32_t tile_cells;
};

/* a board that waits looks so many times in the timeout how long it has waited */
enum { SLICES = 16 };

/* ---- arrivals */

static enum status not_due(const struct packet *packet) {
  return tell(STATUS_DAMAGED, "mail of board %" PRIu32 ": message %" PRIu32 " with %zu words is not due here", packet->from, packet->number,
              packet->length);
}

/* the engine tests taker, length and status; who sent it only the plan's row can tell */
static enum status take_in(struct board *b, const struct packet *packet) {
  const uint32_t m = packet->number;
  if (m < plan_messages(b->plan) && plan_message(b->plan, m)[ROLWYDDAC_ROW_SENDING_PROCESSOR] != packet->from) return not_due(packet);
  const uint32_t number = areas_take_in(&b->areas, b->me, m, packet->words, packet->length);
  switch (number) {
    case ROLWYDDAC_DONE: b->taken++; return STATUS_DONE;
    case ROLWYDDAC_NO_MAIL: return tell(STATUS_DONE, "message %" PRIu32 " of board %" PRIu32 " came again: turned away", m, packet->from);
    case ROLWYDDAC_AREA:
    case ROLWYDDAC_NO_SUCH: return not_due(packet);
    default: return tell_refusal("taking in", number);
  }
}

/* the areas to join in are made when the first part is there: at the start all others wait for board 0's first tile */
static enum status make_joined(struct board *b) { return b->joined->plan != NULL ? STATUS_DONE : areas_make(b->joined, b->plan, b->areas.source); }

static enum status join_part(struct board *b, const struct packet *packet) {
  if (b->me != 0 || packet->length != join_length(b->plan))
    return tell(STATUS_DAMAGED, "mail of board %" PRIu32 ": a part that is not due here", packet->from);
  if (b->peers[packet->from].joined) return tell(STATUS_DONE, "the part of board %" PRIu32 " came again: turned away", packet->from);
  const enum status status = make_joined(b);
  if (status != STATUS_DONE) return status;
  b->peers[packet->from].joined = true;
  join_put(b->joined, packet->from, packet->words);
  return STATUS_DONE;
}

static enum status take_farewell(struct board *b, uint32_t from) {
  if (!b->peers[from].finished) b->finished++;
  b->peers[from].finished = true;
  return STATUS_DONE;
}

static enum status take_packet(struct board *b, const struct packet *packet) {
  switch (packet->kind) {
    case PACKET_MESSAGE: return take_in(b, packet);
    case PACKET_PART: return join_part(b, packet);
    case PACKET_ALIVE: return STATUS_DONE;
    case PACKET_FAREWELL: return take_farewell(b, packet->from);
    case PACKET_ENDED: return packet->number == STATUS_DONE ? STATUS_LOST : (enum status)packet->number;
    default: return tell(STATUS_DAMAGED, "mail of board %" PRIu32 " of no kind: %" PRIu32, packet->from, packet->kind);
  }
}

static enum status take_arrival(struct board *b, const struct arrival *arrival) {
  struct packet packet;
  const uint32_t from = arrival->from;
  b->peers[from].heard = waited_seconds(&b->waited);
  switch (packet_read(arrival->words, arrival->bytes, &b->outbox.key, &packet)) {
    case PACKET_CUT: return tell(STATUS_DAMAGED, "mail of board %" PRIu32 " is cut: %zu bytes came", from, arrival->bytes);
    case PACKET_CORRUPT: return tell(STATUS_DAMAGED, "mail of board %" PRIu32 " is corrupt: its check word is not that of what came", from);
    case PACKET_STALE:
      return tell(STATUS_DAMAGED, "mail of board %" PRIu32 " is stale: it is of run %" PRIu32 ", this is run %" PRIu32, from, packet.run,
                  b->outbox.key.run);
    case PACKET_WHOLE: break;
  }
  if (packet.from != from) return tell(STATUS_DAMAGED, "mail of board %" PRIu32 " came as mail of board %" PRIu32, packet.from, from);
  return take_packet(b, &packet);
}

/* says to the others that it is there, four times in the time that they wait */
static enum status keep_in_touch(struct board *b) {
  const double time = now();
  if (time - b->said < b->options->timeout / 4) return STATUS_DONE;
  b->said = time;
  return outbox_post_all(&b->outbox, PACKET_ALIVE, 0);
}

/* waits for one arrival, at most so many seconds, and no longer than a slice, and heeds it */
static enum status look(struct board *b, double seconds) {
  const enum status status = keep_in_touch(b);
  if (status != STATUS_DONE) return status;
  struct arrival arrival;
  switch (transport_receive(b->transport, seconds < b->waited.slice ? seconds : b->waited.slice, &arrival)) {
    case TRANSPORT_PACKET: return take_arrival(b, &arrival);
    case TRANSPORT_CLOSED:
      if (b->peers[arrival.from].finished) return STATUS_DONE;
      return tell(STATUS_LOST, "board %" PRIu32 " is lost: it ended before it had finished", arrival.from);
    case TRANSPORT_NOTHING: break;
  }
  return STATUS_DONE;
}

/* ---- turns */

/* which messages of which boards it waits for, and at which tile */
static void tell_awaited(struct board *b) {
  const rolwyddac_waiting at = areas_awaited(&b->areas, b->me, b->marks);
  if (at.number != ROLWYDDAC_DONE) tell_refusal("asking what is awaited", at.number);
  for (uint32_t m = 0; m < plan_messages(b->plan) && at.number == ROLWYDDAC_DONE; m++)
    if (b->marks[m] != 0)
      tell(STATUS_TIMEOUT, "waits at tile %" PRIu32 " for message %" PRIu32 " of board %" PRIu32, at.tile, m,
           plan_message(b->plan, m)[ROLWYDDAC_ROW_SENDING_PROCESSOR]);
}

/* until a message is taken in */
static enum status await_mail(struct board *b) {
  const uint64_t before = b->taken;
  const double until = waited_seconds(&b->waited) + b->options->timeout;
  enum status status = STATUS_DONE;
  while (b->taken == before && status == STATUS_DONE) {
    const double left = until - waited_seconds(&b->waited);
    if (left <= 0) status = tell(STATUS_TIMEOUT, "no mail for %g seconds", b->options->timeout);
    else status = look(b, left);
  }
  if (status == STATUS_TIMEOUT) tell_awaited(b);
  return status;
}

/* a board that never waits looks now and then: others are to hear of it, and their mail is not to pile up */
static enum status look_now_and_then(struct board *b) {
  const double time = now();
  if (time - b->said < b->options->timeout / 4) return STATUS_DONE;
  enum status status = STATUS_DONE;
  for (uint32_t board = 0; board < plan_boards(b->plan) && status == STATUS_DONE; board++) status = look(b, 0);
  return status;
}

/* what is to be done when a turn gave this number; `calculates`: it calculated a tile, if it gave 0 */
static enum status after_turn(struct board *b, uint32_t number, bool calculates) {
  if (number == ROLWYDDAC_WAITING) return await_mail(b);
  if (number != ROLWYDDAC_DONE) return tell_refusal("turn", number);
  if (calculates) work_on(b->tile_cells, b->options->work);
  const enum status status = outbox_post_messages(&b->outbox, &b->areas);
  return status == STATUS_DONE ? look_now_and_then(b) : status;
}

static enum status take_turns(struct board *b) {
  enum { CALCULATE = 1 };
  for (;;) {
    const bool calculates = b->areas.progress[b->me].stage == CALCULATE;
    const uint32_t number = areas_turn(&b->areas, b->me);
    if (number == ROLWYDDAC_FINISHED) return STATUS_DONE;
    const enum status status = after_turn(b, number, calculates);
    if (status != STATUS_DONE) return status;
  }
}

/* ---- the end of a board */

/* a peer that has not been heard of for too long; those that have finished need not be */
static enum status heard_of_all(struct board *b) {
  const double time = waited_seconds(&b->waited);
  for (uint32_t p = 0; p < plan_boards(b->plan); p++)
    if (p != b->me && !b->peers[p].finished && time - b->peers[p].heard > b->options->timeout)
      return tell(STATUS_TIMEOUT, "has finished, and nothing was heard of board %" PRIu32 " for %g seconds", p, b->options->timeout);
  return STATUS_DONE;
}

static enum status await_farewells(struct board *b) {
  enum status status = STATUS_DONE;
  const double start = waited_seconds(&b->waited);
  for (uint32_t p = 0; p < plan_boards(b->plan); p++) b->peers[p].heard = start;
  while (status == STATUS_DONE && b->finished < plan_boards(b->plan) - 1) {
    status = look(b, b->options->timeout);
    if (status == STATUS_DONE) status = heard_of_all(b);
  }
  return status;
}

/* nothing is to come any more; its own mail is to be off */
static enum status see_mail_off(struct board *b) {
  const double until = waited_seconds(&b->waited) + b->options->timeout;
  enum status status = STATUS_DONE;
  while (status == STATUS_DONE && !transport_settled(b->transport)) {
    status = look(b, 0.001);
    if (status == STATUS_DONE && waited_seconds(&b->waited) > until)
      status = tell(STATUS_TIMEOUT, "has finished, and its mail is not off after %g seconds", b->options->timeout);
  }
  return status;
}

static enum status hand_in(struct board *b) {
  if (b->me != 0) return outbox_post_part(&b->outbox, &b->areas);
  const enum status status = make_joined(b);
  if (status == STATUS_DONE) join_own(b->joined, &b->areas, 0);
  return status;
}

/* hands its part in, and stays until all others have finished: their last mail is heeded, if it is a repeat */
static enum status finish(struct board *b) {
  enum status status = hand_in(b);
  if (status == STATUS_DONE) status = outbox_post_all(&b->outbox, PACKET_FAREWELL, 0);
  if (status == STATUS_DONE) status = await_farewells(b);
  if (status == STATUS_DONE) status = see_mail_off(b);
  for (uint32_t p = 1; p < plan_boards(b->plan) && b->me == 0 && status == STATUS_DONE; p++)
    if (!b->peers[p].joined) status = tell(STATUS_TIMEOUT, "the part of board %" PRIu32 " did not come", p);
  return status;
}

/* tells the others that the run has ended, and sees the mail off for a moment. It does so too if another board has told it: whose end is found
 * closed has said why */
static void end_early(struct board *b, enum status status) {
  const double until = now() + 0.2;
  struct arrival ignored;
  if (outbox_post_all(&b->outbox, PACKET_ENDED, status) != STATUS_DONE) return;
  while (!transport_settled(b->transport) && now() < until) (void)transport_receive(b->transport, 0.01, &ignored);
}

static enum status make(struct board *b, const struct job *job) {
  const enum status status = outbox_make(&b->outbox, b->transport, b->plan, job->run);
  if (status != STATUS_DONE) return status;
  b->peers = calloc(plan_boards(b->plan), sizeof *b->peers);
  b->marks = malloc((size_t)plan_messages(b->plan) + 1);
  if (b->peers == NULL || b->marks == NULL) return tell_no_memory();
  return areas_make(&b->areas, b->plan, job->source);
}

enum status board_run(const struct options *options, const struct job *job, struct transport *transport, struct areas *joined) {
  struct board b = {
      .options = options,
      .plan = &job->plan,
      .transport = transport,
      .me = transport_me(transport),
      .joined = joined,
      .said = now(),
      .waited = waited_from_now(options->timeout / SLICES),
      .tile_cells = work_cells(&job->plan),
  };
  enum status status = make(&b, job);
  const bool made = status == STATUS_DONE;
  if (made) status = take_turns(&b);
  if (status == STATUS_DONE) status = finish(&b);
  if (made && status != STATUS_DONE) end_early(&b, status);
  outbox_free(&b.outbox);
  areas_free(&b.areas);
  free(b.peers);
  free(b.marks);
  return status;
}

#include "outbox.h"

#include <stdbool.h>
#include <stdlib.h>

#include "join.h"
#include "tell.h"

/* PACKET_ALIVE, PACKET_FAREWELL and PACKET_ENDED: each kind has one packet, posted to all */
enum { NOTES = 3 };

static bool sends(const struct plan *plan, uint32_t board, uint32_t message) {
  return plan_message(plan, message)[ROLWYDDAC_ROW_SENDING_PROCESSOR] == board;
}

/* the words that all packets of this board have */
static size_t room_for(const struct plan *plan, uint32_t board) {
  size_t words = NOTES * packet_size(0) + packet_size(join_length(plan));
  for (uint32_t m = 0; m < plan_messages(plan); m++)
    if (sends(plan, board, m)) words += packet_size(plan_message(plan, m)[ROLWYDDAC_ROW_WORDS]);
  return words;
}

static void fill(uint32_t *room, const struct outbox *out, enum packet_kind kind, uint32_t number, const uint32_t *words, size_t length) {
  packet_write(room, &out->key, &(struct packet){kind, out->key.run, out->me, number, words, length});
}

/* the room of a kind that has no words of its own */
static uint32_t *note_room(const struct outbox *out, enum packet_kind kind) { return out->room + (size_t)(kind - PACKET_ALIVE) * packet_size(0); }

enum status outbox_make(struct outbox *out, struct transport *transport, const struct plan *plan, uint32_t run) {
  const uint32_t me = transport_me(transport);
  *out = (struct outbox){
      .transport = transport,
      .plan = plan,
      .key = packet_key(plan->recipe, plan->recipe_length, plan->route, run),
      .me = me,
      .mine = malloc((plan_messages(plan) + 1) * sizeof *out->mine),
      .room = malloc(room_for(plan, me) * sizeof *out->room),
      .used = NOTES * packet_size(0),
  };
  if (out->mine == NULL || out->room == NULL) return tell_no_memory();
  /* a board does its tiles in rising order, and messages are numbered by their sending tile */
  for (uint32_t m = 0; m < plan_messages(plan); m++)
    if (sends(plan, me, m)) out->mine[out->sends++] = m;
  fill(note_room(out, PACKET_ALIVE), out, PACKET_ALIVE, 0, NULL, 0);
  return STATUS_DONE;
}

static uint32_t *take_room(struct outbox *out, size_t length) {
  uint32_t *room = out->room + out->used;
  out->used += packet_size(length);
  return room;
}

static enum status post_message(struct outbox *out, struct areas *areas, uint32_t message) {
  const uint32_t *row = plan_message(out->plan, message);
  const size_t length = row[ROLWYDDAC_ROW_WORDS];
  uint32_t *room = take_room(out, length);
  fill(room, out, PACKET_MESSAGE, message, areas_words(areas, message), length);
  const uint32_t number = areas_deliver(areas, message);
  if (number != ROLWYDDAC_DONE) return tell_refusal("posting", number);
  return transport_post(out->transport, row[ROLWYDDAC_ROW_TAKING_PROCESSOR], room, packet_size(length) * sizeof *room);
}

enum status outbox_post_messages(struct outbox *out, struct areas *areas) {
  enum { IN_FLIGHT = 1 };
  while (out->posted < out->sends && areas->status[out->mine[out->posted]] == IN_FLIGHT) {
    const enum status status = post_message(out, areas, out->mine[out->posted++]);
    if (status != STATUS_DONE) return status;
  }
  return STATUS_DONE;
}

enum status outbox_post_part(struct outbox *out, const struct areas *areas) {
  const size_t length = join_length(out->plan);
  uint32_t *room = take_room(out, length);
  join_write(areas, out->me, room + PACKET_HEADER);
  fill(room, out, PACKET_PART, out->me, room + PACKET_HEADER, length);
  return transport_post(out->transport, 0, room, packet_size(length) * sizeof *room);
}

enum status outbox_post_all(struct outbox *out, enum packet_kind kind, uint32_t number) {
  uint32_t *room = note_room(out, kind);
  /* that it is there it says again and again, by the same packet */
  if (kind != PACKET_ALIVE) fill(room, out, kind, number, NULL, 0);
  for (uint32_t board = 0; board < plan_boards(out->plan); board++) {
    if (board == out->me) continue;
    const enum status status = transport_post(out->transport, board, room, packet_size(0) * sizeof *room);
    if (status != STATUS_DONE) return status;
  }
  return STATUS_DONE;
}

void outbox_free(struct outbox *out) {
  free(out->mine);
  free(out->room);
}

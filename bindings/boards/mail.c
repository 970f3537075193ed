#define _POSIX_C_SOURCE 200809L
#include "mail.h"

#include <stdlib.h>

#include "clock.h"
#include "tell.h"

/* packets that a new board is sent at once: the rest it asks for */
enum { MOST_AT_ONCE = 64 };

/* what was posted a moment ago may be on its way; seconds */
static const double MOMENT = 0.001;

enum status mail_make(struct mail *out, struct net *net, const struct job *job, const struct envelope *envelope) {
  const struct plan *plan = &job->plan;
  const size_t messages = plan_messages(plan);
  *out = (struct mail){.net = net, .plan = plan, .envelope = *envelope};
  out->parts = calloc(plan->sizes.buffer + 1, sizeof *out->parts);
  out->masks = calloc(messages + 1, sizeof *out->masks);
  out->mine = calloc(messages + 1, sizeof *out->mine);
  out->posted_at = calloc(messages + 1, sizeof *out->posted_at);
  out->marks = calloc(messages + 1, sizeof *out->marks);
  if (out->parts == NULL || out->masks == NULL || out->mine == NULL || out->posted_at == NULL || out->marks == NULL) return tell_no_memory();
  /* a board does its tiles in rising order, and messages are numbered by their sending tile */
  for (uint32_t m = 0; m < messages; m++)
    if (plan_message(plan, m)[ROLWYDDAC_ROW_SENDING_PROCESSOR] == envelope->from) out->mine[out->sends++] = m;
  return areas_make(&out->areas, plan, job->source);
}

/* ---- posting */

/* the chunks of a message that are not in the mask; how many they were */
static uint32_t send_chunks(struct mail *mail, uint32_t message, uint64_t there) {
  uint8_t bytes[NET_BYTES];
  uint32_t sent = 0;
  const struct areas *a = &mail->areas;
  const uint32_t *row = plan_message(mail->plan, message);
  for (uint32_t chunk = 0; chunk * ROLWYDDAC_PACKET_WORDS <= row[ROLWYDDAC_ROW_WORDS] && chunk < ROLWYDDAC_MOST_CHUNKS; chunk++) {
    if (there >> chunk & 1) continue;
    const rolwyddac_written written =
        rolwyddac_send(mail->plan->recipe, mail->plan->recipe_length, mail->plan->route, mail->envelope.run, mail->envelope.life, a->buffer,
                       mail->plan->sizes.buffer, a->status, mail->plan->sizes.status, mail->envelope.from, message, chunk, bytes, ROLWYDDAC_LONGEST_PACKET);
    if (written.number != ROLWYDDAC_DONE) break;
    net_send(mail->net, row[ROLWYDDAC_ROW_TAKING_PROCESSOR], bytes, written.length);
    sent++;
  }
  mail->posted_at[message] = now();
  return sent;
}

enum status mail_post(struct mail *mail) {
  enum { IN_FLIGHT = 1 };
  while (mail->posted < mail->sends && mail->areas.status[mail->mine[mail->posted]] == IN_FLIGHT) {
    const uint32_t message = mail->mine[mail->posted++];
    const uint32_t number = areas_deliver(&mail->areas, message);
    if (number != ROLWYDDAC_DONE) return tell_refusal("posting", number);
    /* a message that a board has for itself is delivered by that */
    if (plan_message(mail->plan, message)[ROLWYDDAC_ROW_TAKING_PROCESSOR] != mail->envelope.from) send_chunks(mail, message, 0);
  }
  return STATUS_DONE;
}

static uint32_t repost(struct mail *mail, uint32_t message, uint64_t there) {
  if (now() - mail->posted_at[message] < MOMENT) return 0;
  const uint32_t sent = send_chunks(mail, message, there);
  mail->net->counts.of[COUNT_LOST] += sent;
  return sent;
}

/* a board that is new has nothing of what it was sent before */
static void repost_all(struct mail *mail, uint32_t to) {
  uint32_t sent = 0;
  for (uint32_t k = 0; k < mail->posted && sent < MOST_AT_ONCE; k++)
    if (plan_message(mail->plan, mail->mine[k])[ROLWYDDAC_ROW_TAKING_PROCESSOR] == to) sent += repost(mail, mail->mine[k], 0);
}

void mail_answer(struct mail *mail, const struct letter *ask) {
  const uint32_t message = ask->line.item, from = ask->line.sender;
  if (ask->line.count != ASK_WORDS || message >= plan_messages(mail->plan) || plan_message(mail->plan, message)[ROLWYDDAC_ROW_TAKING_PROCESSOR] != from) {
    post_count(mail->net, ROLWYDDAC_NO_SUCH);
    return;
  }
  /* where it is another board's message, or was not sent in this life, nothing is posted: rolwyddac_send refuses it */
  repost(mail, message, mask_of(ask->words + ASK_MASK));
  if (ask->words[ASK_NEW] == 0 || mail->life[from] == ask->line.life) return;
  mail->life[from] = ask->line.life;
  repost_all(mail, from);
}

/* ---- taking in */

enum status mail_take(struct mail *mail, const struct datagram *came, uint32_t message, bool *taken) {
  const struct plan *plan = mail->plan;
  const uint64_t before = message < plan_messages(plan) ? mail->masks[message] : 0;
  const rolwyddac_received got = rolwyddac_receive(
      plan->recipe, plan->recipe_length, plan->route, mail->envelope.run, mail->areas.source, plan->sizes.source, mail->areas.memories, plan->sizes.memories,
      mail->areas.buffer, plan->sizes.buffer, mail->areas.progress, plan->sizes.progress, mail->areas.status, plan->sizes.status, mail->envelope.from,
      came->bytes, came->length, mail->parts, plan->sizes.buffer, mail->masks, plan->sizes.status);
  switch (got.number) {
    case ROLWYDDAC_DONE: break;
    case ROLWYDDAC_NO_MAIL: mail->net->counts.of[COUNT_REPEATED]++; return STATUS_DONE;
    case ROLWYDDAC_DAMAGED:
    case ROLWYDDAC_STALE:
    case ROLWYDDAC_NO_SUCH: post_count(mail->net, got.number); return STATUS_DONE;
    default: return tell_refusal("receiving", got.number);
  }
  if (got.whole == 0) {
    if (mail->masks[message] == before) mail->net->counts.of[COUNT_REPEATED]++;
    return STATUS_DONE;
  }
  *taken = true;
  mail->heard[plan_message(plan, got.message)[ROLWYDDAC_ROW_SENDING_PROCESSOR]] = true;
  return STATUS_DONE;
}

void mail_ask(struct mail *mail) {
  if (areas_awaited(&mail->areas, mail->envelope.from, mail->marks).number != ROLWYDDAC_DONE) return;
  for (uint32_t m = 0; m < plan_messages(mail->plan); m++) {
    if (mail->marks[m] == 0) continue;
    const uint32_t from = plan_message(mail->plan, m)[ROLWYDDAC_ROW_SENDING_PROCESSOR];
    uint32_t words[ASK_WORDS] = {[ASK_NEW] = !mail->heard[from]};
    mask_put(words + ASK_MASK, mail->masks[m]);
    post_item(mail->net, &mail->envelope, KIND_ASK, from, m, words, ASK_WORDS, 0);
  }
}

void mail_free(struct mail *mail) {
  areas_free(&mail->areas);
  free(mail->parts);
  free(mail->masks);
  free(mail->mine);
  free(mail->posted_at);
  free(mail->marks);
}

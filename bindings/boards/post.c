#define _POSIX_C_SOURCE 200809L
#include "post.h"

uint32_t post_item(struct net *net, const struct envelope *envelope, enum kind kind, uint32_t to, uint32_t item, const uint32_t *words, size_t length,
                   uint64_t there) {
  uint8_t bytes[NET_BYTES];
  uint32_t posted = 0;
  for (uint32_t chunk = 0; chunk < ROLWYDDAC_MOST_CHUNKS; chunk++) {
    if (there >> chunk & 1) continue;
    const rolwyddac_written written = rolwyddac_packet(envelope->fingerprint, envelope->run, envelope->life, kind, envelope->from, to, item, chunk, words,
                                                       length, bytes, ROLWYDDAC_LONGEST_PACKET);
    if (written.number != ROLWYDDAC_DONE) break;
    net_send(net, to, bytes, written.length);
    posted++;
  }
  return posted;
}

uint32_t post_read(const struct net *net, const struct envelope *envelope, const struct datagram *came, struct letter *out) {
  out->line = rolwyddac_packet_read(envelope->fingerprint, envelope->run, came->bytes, came->length, out->words, ROLWYDDAC_PACKET_WORDS);
  if (out->line.number != ROLWYDDAC_DONE) return out->line.number;
  const uint32_t from = out->line.sender;
  const bool due = out->line.taker == envelope->from && from != envelope->from && hosts_has(net->hosts, from);
  return due && address_equal(&came->from, &net->hosts->node[from]) ? ROLWYDDAC_DONE : ROLWYDDAC_NO_SUCH;
}

void post_count(struct net *net, uint32_t number) {
  net->counts.of[number == ROLWYDDAC_DAMAGED ? COUNT_DAMAGED : number == ROLWYDDAC_STALE ? COUNT_STALE : COUNT_STRAY]++;
}

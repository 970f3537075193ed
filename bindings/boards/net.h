/* One UDP socket a process. Of a packet that is sent nothing is promised, here as in the theorem: it may be lost, come twice, late or in another order. */
#ifndef BOARDS_NET_H
#define BOARDS_NET_H

#include <signal.h>
#include <stdbool.h>
#include <stddef.h>
#include <stdint.h>

#include "counts.h"
#include "hosts.h"
#include "key.h"
#include "rolwyddac.h"
#include "status.h"

enum { NET_BYTES = ROLWYDDAC_LONGEST_PACKET + TAG_BYTES };

struct net {
  int socket;
  const struct hosts *hosts;
  const struct key *key;
  struct counts counts;
};

/* What came: some bytes, without a tag, from some address. */
struct datagram {
  uint8_t bytes[NET_BYTES + 1];
  size_t length;
  struct address from;
};

/* Opens a socket at an address; where its port is 0 the machine's choice is written there. */
enum status net_open(struct address *at, int *out);

/* Sends the packet that stands in the first bytes; the tag is written behind it. What the machine does not take is lost, as if it were on its way. */
void net_send(struct net *net, uint32_t to, uint8_t bytes[NET_BYTES], size_t length);

/* The next packet that is there and has the key's tag; false if none is. */
bool net_receive(struct net *net, struct datagram *out);

/* Waits until a packet is there, at most so many seconds, under this mask of signals, where one is given. */
void net_await(const struct net *net, double seconds, const sigset_t *mask);

/* A number by chance. */
uint64_t net_chance(void);

#endif

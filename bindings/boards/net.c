#define _GNU_SOURCE
#include "net.h"

#include <errno.h>
#include <poll.h>
#include <stdio.h>
#include <string.h>
#include <sys/random.h>
#include <sys/socket.h>
#include <unistd.h>

#include "clock.h"
#include "tell.h"

enum status net_open(struct address *at, int *out) {
  const int room = 1 << 21;
  *out = socket(at->at.ss_family, SOCK_DGRAM | SOCK_NONBLOCK | SOCK_CLOEXEC, 0);
  if (*out < 0) return tell(STATUS_MACHINE, "no socket: %s", strerror(errno));
  /* as much as the machine gives: what has no room is lost, and asked for again */
  (void)setsockopt(*out, SOL_SOCKET, SO_RCVBUF, &room, sizeof room);
  (void)setsockopt(*out, SOL_SOCKET, SO_SNDBUF, &room, sizeof room);
  if (bind(*out, (struct sockaddr *)&at->at, at->length) == 0 && getsockname(*out, (struct sockaddr *)&at->at, &at->length) == 0) return STATUS_DONE;
  const enum status status = tell(STATUS_MACHINE, "no socket at the address asked for: %s", strerror(errno));
  close(*out);
  *out = -1;
  return status;
}

void net_send(struct net *net, uint32_t to, uint8_t bytes[NET_BYTES], size_t length) {
  const struct address *at = &net->hosts->node[to];
  key_sign(net->key, bytes, length);
  net->counts.of[COUNT_POSTED]++;
  (void)sendto(net->socket, bytes, length + key_length(net->key), MSG_NOSIGNAL, (const struct sockaddr *)&at->at, at->length);
}

/* What the machine tells of an earlier packet, as that nobody listens where it went, is nothing to this program. */
static ssize_t take_next(const struct net *net, struct datagram *out) {
  enum { MOST_TOLD = 64 };
  ssize_t length = -1;
  for (int told = 0; told < MOST_TOLD && length < 0; told++) {
    out->from.length = sizeof out->from.at;
    length = recvfrom(net->socket, out->bytes, sizeof out->bytes, 0, (struct sockaddr *)&out->from.at, &out->from.length);
    if (length < 0 && (errno == EAGAIN || errno == EWOULDBLOCK)) break;
  }
  return length;
}

bool net_receive(struct net *net, struct datagram *out) {
  /* whoever floods this process with packets is not to keep it from its work */
  enum { MOST_FORGED = 64 };
  const size_t tag = key_length(net->key);
  ssize_t came;
  for (int forged = 0; forged < MOST_FORGED && (came = take_next(net, out)) >= 0; forged++) {
    const bool tagged = (size_t)came >= tag && (size_t)came <= NET_BYTES;
    out->length = tagged ? (size_t)came - tag : 0;
    /* a packet that is longer than any is damaged: so is one without bytes */
    if (!tagged || key_signed(net->key, out->bytes, out->length)) return true;
    net->counts.of[COUNT_FORGED]++;
  }
  return false;
}

void net_await(const struct net *net, double seconds, const sigset_t *mask) {
  const double left = seconds > 0 ? seconds : 0;
  const struct timespec most = {.tv_sec = (time_t)left, .tv_nsec = (long)((left - (double)(time_t)left) * 1e9)};
  (void)ppoll(&(struct pollfd){.fd = net->socket, .events = POLLIN}, 1, &most, mask);
}

uint64_t net_chance(void) {
  uint64_t out = 0;
  /* where the machine has none the clock and the process's number do */
  if (getrandom(&out, sizeof out, 0) != (ssize_t)sizeof out) out = (uint64_t)(now() * 1e9) ^ (uint64_t)getpid() << 40;
  return out;
}

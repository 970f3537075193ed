/* Where the coordinator and the boards are: one address each. */
#ifndef BOARDS_HOSTS_H
#define BOARDS_HOSTS_H

#include <stdbool.h>
#include <stdint.h>
#include <sys/socket.h>

#include "rolwyddac.h"
#include "status.h"

/* the coordinator's number; boards have smaller ones */
enum { COORDINATOR = ROLWYDDAC_MOST_PROCESSORS, MOST_NODES = COORDINATOR + 1 };

struct address {
  struct sockaddr_storage at;
  socklen_t length;
};

struct hosts {
  uint32_t boards;
  struct address node[MOST_NODES];
  bool loopback; /* all are this machine's own */
};

/* Reads a hosts file: the coordinator's line, then one a board, each host:port or [host]:port. Empty lines and those that begin with # do not count. */
enum status hosts_read(struct hosts *out, const char *name);

/* So many boards at 127.0.0.1, and the coordinator; their ports are 0 yet. */
void hosts_here(struct hosts *out, uint32_t boards);

static inline bool hosts_has(const struct hosts *hosts, uint32_t node) { return node == COORDINATOR || node < hosts->boards; }

/* The same host and port? */
bool address_equal(const struct address *a, const struct address *b);

#endif

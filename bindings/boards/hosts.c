#define _POSIX_C_SOURCE 200809L
#include "hosts.h"

#include <errno.h>
#include <netdb.h>
#include <netinet/in.h>
#include <stdio.h>
#include <string.h>

#include "tell.h"

static const struct sockaddr_in *four(const struct address *a) { return (const struct sockaddr_in *)&a->at; }
static const struct sockaddr_in6 *six(const struct address *a) { return (const struct sockaddr_in6 *)&a->at; }

static bool is_loopback(const struct address *a) {
  if (a->at.ss_family == AF_INET) return ntohl(four(a)->sin_addr.s_addr) >> 24 == 127;
  return IN6_IS_ADDR_LOOPBACK(&six(a)->sin6_addr);
}

bool address_equal(const struct address *a, const struct address *b) {
  if (a->at.ss_family != b->at.ss_family) return false;
  if (a->at.ss_family == AF_INET) return four(a)->sin_port == four(b)->sin_port && four(a)->sin_addr.s_addr == four(b)->sin_addr.s_addr;
  return six(a)->sin6_port == six(b)->sin6_port && memcmp(&six(a)->sin6_addr, &six(b)->sin6_addr, sizeof six(a)->sin6_addr) == 0;
}

/* the coordinator's line decides between the two kinds of addresses: packets go from one kind to the same alone */
static int family_of(const struct hosts *hosts, uint32_t node) { return node == COORDINATOR ? AF_UNSPEC : hosts->node[COORDINATOR].at.ss_family; }

static enum status resolve(struct hosts *out, uint32_t node, char *line, const char *name) {
  char *port = strrchr(line, ':'), *host = line;
  if (port == NULL) return tell(STATUS_USAGE, "%s: %s is not host:port", name, line);
  *port++ = '\0';
  if (host[0] == '[' && port - host > 2 && port[-2] == ']') host++, port[-2] = '\0';
  struct addrinfo *found = NULL;
  const struct addrinfo hints = {.ai_family = family_of(out, node), .ai_socktype = SOCK_DGRAM, .ai_flags = AI_NUMERICSERV};
  const int fault = getaddrinfo(host, port, &hints, &found);
  if (fault != 0) return tell(STATUS_USAGE, "%s: %s port %s: %s", name, host, port, gai_strerror(fault));
  struct address *to = &out->node[node];
  to->length = found->ai_addrlen;
  memcpy(&to->at, found->ai_addr, found->ai_addrlen);
  freeaddrinfo(found);
  if (!is_loopback(to)) out->loopback = false;
  return STATUS_DONE;
}

static enum status read_lines(struct hosts *out, FILE *file, const char *name, uint32_t *lines) {
  char line[300];
  enum status status = STATUS_DONE;
  while (status == STATUS_DONE && fgets(line, sizeof line, file) != NULL) {
    line[strcspn(line, "\r\n")] = '\0';
    if (line[0] == '\0' || line[0] == '#') continue;
    if (*lines == MOST_NODES) status = tell(STATUS_USAGE, "%s has more than %d lines", name, MOST_NODES);
    else status = resolve(out, *lines == 0 ? COORDINATOR : *lines - 1, line, name);
    ++*lines;
  }
  return status;
}

static enum status hold_apart(const struct hosts *hosts, uint32_t node, const char *name) {
  for (uint32_t b = 0; b < hosts->boards; b++)
    if (b != node && address_equal(&hosts->node[b], &hosts->node[node])) return tell(STATUS_USAGE, "%s has the same host and port twice", name);
  return STATUS_DONE;
}

enum status hosts_read(struct hosts *out, const char *name) {
  *out = (struct hosts){.loopback = true};
  FILE *file = fopen(name, "r");
  if (file == NULL) return tell(STATUS_FILE, "can't open %s: %s", name, strerror(errno));
  uint32_t lines = 0;
  enum status status = read_lines(out, file, name, &lines);
  if (status == STATUS_DONE && ferror(file)) status = tell(STATUS_FILE, "can't read %s: %s", name, strerror(errno));
  fclose(file);
  if (status == STATUS_DONE && lines < 2) status = tell(STATUS_USAGE, "%s: a line for the coordinator and one a board are asked for", name);
  if (status != STATUS_DONE) return status;
  out->boards = lines - 1;
  status = hold_apart(out, COORDINATOR, name);
  for (uint32_t b = 0; b < out->boards && status == STATUS_DONE; b++) status = hold_apart(out, b, name);
  return status;
}

void hosts_here(struct hosts *out, uint32_t boards) {
  const struct sockaddr_in here = {.sin_family = AF_INET, .sin_addr = {htonl(INADDR_LOOPBACK)}};
  *out = (struct hosts){.boards = boards, .loopback = true};
  for (uint32_t node = 0; node < MOST_NODES; node++) {
    memcpy(&out->node[node].at, &here, sizeof here);
    out->node[node].length = sizeof here;
  }
}

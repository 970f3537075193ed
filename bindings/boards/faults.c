/* Faults of the network and of boards, laid over the program when one for the tests is linked (build, --wrap). Told by the environment:
 *
 *    BOARDS_NET      percentages of packets: lost, sent twice, corrupted (a bit changed) and late (sent behind later ones): 30:10:5:20
 *    BOARDS_PAUSE    microseconds that a board sleeps behind each tile
 *    BOARDS_FAULT    halted:1: this board stops before it posts its first message, in each of its lives
 *                    mute:3: no packet of this message goes off
 *                    stopped:1: before this board posts its first message the whole group of processes is stopped, as by Ctrl-Z
 *                    differs:0: the sweep's last word is another
 *                    signal-writing:15: this signal comes while the grid is brought to the disk */
#define _GNU_SOURCE
#include <signal.h>
#include <stdbool.h>
#include <stdint.h>
#include <stdio.h>
#include <stdlib.h>
#include <string.h>
#include <sys/socket.h>
#include <time.h>
#include <unistd.h>

#include "net.h"
#include "post.h"

/* names that the linker makes */
ssize_t __real_sendto(int socket, const void *bytes, size_t length, int flags, const struct sockaddr *to, socklen_t to_length);
ssize_t __wrap_sendto(int socket, const void *bytes, size_t length, int flags, const struct sockaddr *to, socklen_t to_length);
void __real_work_on(uint32_t cells, uint32_t rounds);
void __wrap_work_on(uint32_t cells, uint32_t rounds);
uint32_t __real_rolwyddac_sweep(const uint8_t *encoded, size_t encoded_length, const uint32_t *source, size_t source_length, uint32_t *grid,
                                size_t grid_length);
uint32_t __wrap_rolwyddac_sweep(const uint8_t *encoded, size_t encoded_length, const uint32_t *source, size_t source_length, uint32_t *grid,
                                size_t grid_length);
int __real_fsync(int file);
int __wrap_fsync(int file);

/* is this the fault asked for, of this number? */
static bool asked(const char *fault, uint32_t number) {
  char name[32] = "";
  unsigned which = 0;
  const char *told = getenv("BOARDS_FAULT");
  return told != NULL && sscanf(told, "%31[a-z-]:%u", name, &which) == 2 && strcmp(name, fault) == 0 && which == number;
}

/* ---- boards */

static void pause_for(long microseconds) { (void)nanosleep(&(struct timespec){microseconds / 1000000, microseconds % 1000000 * 1000}, NULL); }

static void befall_board(uint32_t board) {
  static bool stopped;
  if (asked("halted", board)) raise(SIGSTOP);
  if (stopped || !asked("stopped", board)) return;
  stopped = true;
  kill(0, SIGSTOP);
  /* the others go on first, and find that they have waited for long */
  pause_for(300000);
}

void __wrap_work_on(uint32_t cells, uint32_t rounds) {
  const char *told = getenv("BOARDS_PAUSE");
  if (told != NULL) pause_for(strtol(told, NULL, 10));
  __real_work_on(cells, rounds);
}

/* ---- the network */

struct percents {
  double lost, twice, corrupted, late;
};

static struct percents percents(void) {
  struct percents p = {0};
  const char *told = getenv("BOARDS_NET");
  if (told != NULL) (void)sscanf(told, "%lf:%lf:%lf:%lf", &p.lost, &p.twice, &p.corrupted, &p.late);
  return p;
}

static bool befalls(double percent) { return percent > 0 && (double)(net_chance() >> 11) * 0x1p-53 * 100 < percent; }

/* a packet that goes behind later ones */
static struct {
  uint8_t bytes[NET_BYTES];
  size_t length;
  struct sockaddr_storage to;
  socklen_t to_length;
} held;

static void hold(const uint8_t *bytes, size_t length, const struct sockaddr *to, socklen_t to_length) {
  memcpy(held.bytes, bytes, length);
  memcpy(&held.to, to, to_length);
  held.length = length, held.to_length = to_length;
}

static void release(int socket) {
  (void)__real_sendto(socket, held.bytes, held.length, MSG_NOSIGNAL, (const struct sockaddr *)&held.to, held.to_length);
  held.length = 0;
}

static uint32_t word_of(const uint8_t *bytes, size_t at) { return bytes[4 * at] | (uint32_t)bytes[4 * at + 1] << 8; }

ssize_t __wrap_sendto(int socket, const void *bytes, size_t length, int flags, const struct sockaddr *to, socklen_t to_length) {
  enum { KIND = 7, SENDER = 8, ITEM = 10 };
  const struct percents p = percents();
  uint8_t sent[NET_BYTES];
  memcpy(sent, bytes, length);
  if (word_of(sent, KIND) == KIND_MESSAGE) befall_board(word_of(sent, SENDER));
  if (word_of(sent, KIND) == KIND_MESSAGE && asked("mute", word_of(sent, ITEM))) return (ssize_t)length;
  if (befalls(p.lost)) return (ssize_t)length;
  if (befalls(p.corrupted)) sent[net_chance() % length] ^= (uint8_t)(1 << net_chance() % 8);
  if (befalls(p.twice)) (void)__real_sendto(socket, sent, length, flags, to, to_length);
  if (held.length == 0 && befalls(p.late)) {
    hold(sent, length, to, to_length);
    return (ssize_t)length;
  }
  const ssize_t off = __real_sendto(socket, sent, length, flags, to, to_length);
  if (held.length > 0 && befalls(30)) release(socket);
  return off;
}

/* ---- the end */

uint32_t __wrap_rolwyddac_sweep(const uint8_t *encoded, size_t encoded_length, const uint32_t *source, size_t source_length, uint32_t *grid,
                                size_t grid_length) {
  const uint32_t number = __real_rolwyddac_sweep(encoded, encoded_length, source, source_length, grid, grid_length);
  if (number == ROLWYDDAC_DONE && asked("differs", 0)) grid[grid_length - 1] ^= 1;
  return number;
}

int __wrap_fsync(int file) {
  static const int ending[] = {SIGHUP, SIGINT, SIGTERM};
  for (size_t i = 0; i < sizeof ending / sizeof *ending; i++)
    if (asked("signal-writing", (uint32_t)ending[i])) raise(ending[i]);
  return __real_fsync(file);
}

/* Faults, delays and another order of mail, laid over a transport when a program for the tests is linked (build, --wrap). Told by the environment:
 *
 *    BOARDS_FAULT    lost, doubled, corrupted, cut, stale, foreign (of another recipe) or misrouted (to the next board), and a message's
 *                    number: lost:7; or a board's part: lost-part:2
 *                    killed or halted, and a board: before it posts its first message, or its part: halted-part:2; halted-late: when all is posted
 *                    stopped, and a board: before it posts its first message the whole group of processes is stopped, as by Ctrl-Z
 *                    differs:0: the sweep's last word is another
 *                    signal-writing:15: this signal comes while the grid is brought to the disk
 *    BOARDS_DELAY    a seed and the most microseconds that a post and a look wait: 5:2000
 *    BOARDS_SHUFFLE  a seed: a board's messages are held back until it looks for mail, and go in another order then */
#define _POSIX_C_SOURCE 200809L
#include <signal.h>
#include <stdio.h>
#include <stdlib.h>
#include <string.h>
#include <time.h>
#include <unistd.h>

#include "packet.h"
#include "rolwyddac.h"
#include "transport.h"

/* the boards of the recipe whose messages are misrouted: row C's */
enum { MISROUTED_AMONG = 4 };

/* names that the linker makes */
enum status __real_transport_post(struct transport *t, uint32_t to, const void *bytes, size_t length);
enum status __wrap_transport_post(struct transport *t, uint32_t to, const void *bytes, size_t length);
enum transport_event __real_transport_receive(struct transport *t, double seconds, struct arrival *out);
enum transport_event __wrap_transport_receive(struct transport *t, double seconds, struct arrival *out);
uint32_t __real_rolwyddac_sweep(const uint8_t *encoded, size_t encoded_length, const uint32_t *source, size_t source_length, uint32_t *grid,
                                size_t grid_length);
uint32_t __wrap_rolwyddac_sweep(const uint8_t *encoded, size_t encoded_length, const uint32_t *source, size_t source_length, uint32_t *grid,
                                size_t grid_length);

int __real_fsync(int file);
int __wrap_fsync(int file);

/* xorshift, one sequence a board */
static uint32_t random_below(uint32_t seed, uint32_t board, uint32_t limit) {
  static uint32_t state;
  if (state == 0) state = (seed + 1) * 2654435761u ^ (board + 1) * 2246822519u;
  if (state == 0) state = 1;
  state ^= state << 13;
  state ^= state >> 17;
  state ^= state << 5;
  return state % limit;
}

static void delay(uint32_t board) {
  const char *told = getenv("BOARDS_DELAY");
  unsigned seed = 0, most = 0;
  if (told == NULL || sscanf(told, "%u:%u", &seed, &most) != 2) return;
  (void)nanosleep(&(struct timespec){.tv_nsec = 1000L * random_below(seed, board, most + 1)}, NULL);
}

/* is this the fault asked for, of this number? */
static bool asked(const char *fault, uint32_t number) {
  char name[32] = "";
  unsigned which = 0;
  const char *told = getenv("BOARDS_FAULT");
  return told != NULL && sscanf(told, "%31[a-z-]:%u", name, &which) == 2 && strcmp(name, fault) == 0 && which == number;
}

/* is it asked for of this packet, a message or a part? */
static bool befalls(const char *fault, const uint32_t *packet) {
  char of_part[32];
  snprintf(of_part, sizeof of_part, "%s-part", fault);
  if (packet[PACKET_KIND] == PACKET_MESSAGE) return asked(fault, packet[PACKET_NUMBER]);
  return packet[PACKET_KIND] == PACKET_PART && asked(of_part, packet[PACKET_NUMBER]);
}

/* the check word of a packet of an earlier run: that of this run's, changed as CRC-32, which is linear, changes with the run's word */
static void make_stale(uint32_t *packet) {
  uint32_t change = 1;
  packet[PACKET_RUN] ^= 1;
  size_t bytes = sizeof *packet * (packet_size(packet[PACKET_LENGTH]) - PACKET_RUN);
  for (size_t bit = 0; bit < 8 * bytes; bit++) change = change >> 1 ^ (change & 1 ? 0xedb88320u : 0);
  packet[PACKET_CHECK] ^= change;
}

/* the check word that a packet would have of an empty recipe */
static void make_foreign(uint32_t *packet) {
  const struct packet_key key = packet_key((const uint8_t *)"", 0, ROLWYDDAC_DIRECT, packet[PACKET_RUN]);
  packet_write(packet, &key,
               &(struct packet){packet[PACKET_KIND], packet[PACKET_RUN], packet[PACKET_FROM], packet[PACKET_NUMBER], packet + PACKET_HEADER,
                                packet[PACKET_LENGTH]});
}

/* the board ends or stops here, where that is asked for */
static void befall_board(const char *killed, const char *halted, uint32_t board) {
  if (asked(killed, board)) raise(SIGKILL);
  if (asked(halted, board)) raise(SIGSTOP);
}

static void stop_all_once(uint32_t board) {
  static bool stopped;
  if (stopped || !asked("stopped", board)) return;
  stopped = true;
  kill(0, SIGSTOP);
  /* the others go on first, and find that they have waited for long */
  (void)nanosleep(&(struct timespec){.tv_nsec = 300000000}, NULL);
}

static enum status post_faulty(struct transport *t, uint32_t to, const uint32_t *words, size_t length) {
  if (befalls("lost", words)) return STATUS_DONE;
  if (befalls("cut", words)) length -= sizeof *words;
  if (befalls("misrouted", words)) to = (to + 1) % MISROUTED_AMONG;
  if (befalls("corrupted", words) || befalls("stale", words) || befalls("foreign", words)) {
    static uint32_t changed[1 << 15];
    memcpy(changed, words, length);
    if (befalls("stale", words)) make_stale(changed);
    else if (befalls("foreign", words)) make_foreign(changed);
    else changed[length / sizeof *words - 1] ^= 128;
    words = changed;
  }
  const enum status status = __real_transport_post(t, to, words, length);
  return status == STATUS_DONE && befalls("doubled", words) ? __real_transport_post(t, to, words, length) : status;
}

/* ---- another order */

enum { MOST_HELD = 7168 };
static struct held {
  uint32_t to;
  const uint32_t *words;
  size_t length;
} held[MOST_HELD];
static uint32_t held_back;
static bool all_posted;

static enum status release(struct transport *t) {
  const char *told = getenv("BOARDS_SHUFFLE");
  const uint32_t seed = told == NULL ? 0 : (uint32_t)strtoul(told, NULL, 10);
  enum status status = STATUS_DONE;
  while (held_back > 0 && status == STATUS_DONE) {
    const uint32_t k = random_below(seed, transport_me(t), held_back);
    const struct held next = held[k];
    held[k] = held[--held_back];
    status = post_faulty(t, next.to, next.words, next.length);
  }
  return status;
}

/* ---- what stands in the calls' place */

enum status __wrap_transport_post(struct transport *t, uint32_t to, const void *bytes, size_t length) {
  const uint32_t *words = bytes;
  const bool message = words[PACKET_KIND] == PACKET_MESSAGE;
  if (message) delay(transport_me(t));
  if (message) befall_board("killed", "halted", transport_me(t));
  if (message) stop_all_once(transport_me(t));
  if (words[PACKET_KIND] == PACKET_PART) befall_board("killed-part", "halted-part", transport_me(t));
  if (words[PACKET_KIND] == PACKET_FAREWELL) all_posted = true;
  if (getenv("BOARDS_SHUFFLE") == NULL) return post_faulty(t, to, words, length);
  if (message && held_back < MOST_HELD) {
    held[held_back++] = (struct held){to, words, length};
    return STATUS_DONE;
  }
  const enum status status = release(t);
  return status == STATUS_DONE ? post_faulty(t, to, words, length) : status;
}

enum transport_event __wrap_transport_receive(struct transport *t, double seconds, struct arrival *out) {
  delay(transport_me(t));
  if (all_posted) befall_board("killed-late", "halted-late", transport_me(t));
  if (held_back > 0) (void)release(t);
  return __real_transport_receive(t, seconds, out);
}

uint32_t __wrap_rolwyddac_sweep(const uint8_t *encoded, size_t encoded_length, const uint32_t *source, size_t source_length, uint32_t *grid,
                                size_t grid_length) {
  const uint32_t number = __real_rolwyddac_sweep(encoded, encoded_length, source, source_length, grid, grid_length);
  if (number == ROLWYDDAC_DONE && asked("differs", 0)) grid[grid_length - 1] ^= 1;
  return number;
}

int __wrap_fsync(int file) {
  static const int ending[] = {SIGHUP, SIGINT, SIGTERM};
  for (size_t i = 0; i < sizeof ending / sizeof *ending; i++)
    if (asked("signal-writing", (uint32_t)ending[i])) raise(ending[i]);
  return __real_fsync(file);
}

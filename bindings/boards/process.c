#define _POSIX_C_SOURCE 200809L
#include "process.h"

#include <errno.h>
#include <fcntl.h>
#include <stddef.h>
#include <unistd.h>

/* A file or socket that is opened takes the lowest free number. If that were 0, 1 or 2, what is printed would go to a board. A folder takes the
 * place: it is there on every machine, and reading it or writing to it fails, as with a closed file. */
static void take_standard_files(void) {
  for (int file = STDIN_FILENO; file <= STDERR_FILENO; file++)
    if (fcntl(file, F_GETFD) < 0 && errno == EBADF) (void)open("/", O_RDONLY);
}

static void set(int number, void (*disposition)(int)) {
  struct sigaction action = {.sa_handler = disposition};
  sigemptyset(&action.sa_mask);
  (void)sigaction(number, &action, NULL);
}

void process_prepare(void) {
  take_standard_files();
  set(SIGPIPE, SIG_IGN);
  set(SIGXFSZ, SIG_IGN);
  /* where it is ignored, the end of a child is not told */
  set(SIGCHLD, SIG_DFL);
}

static const int ending[] = {SIGHUP, SIGINT, SIGTERM};
enum { ENDING = sizeof ending / sizeof *ending };

static bool is_heeded(int number) {
  struct sigaction found;
  return sigaction(number, NULL, &found) == 0 && found.sa_handler != SIG_IGN;
}

void process_ending_signals(sigset_t *out) {
  sigemptyset(out);
  for (size_t i = 0; i < ENDING; i++)
    if (is_heeded(ending[i])) sigaddset(out, ending[i]);
}

static void (*do_last)(void);

/* the signal's own disposition is there again when this is called */
static void end(int number) {
  if (do_last != NULL) do_last();
  raise(number);
  _exit(128 + number);
}

void process_before_end(void (*last)(void)) {
  struct sigaction action = {.sa_handler = end, .sa_flags = (int)(SA_RESETHAND | SA_NODEFER)};
  do_last = last;
  process_ending_signals(&action.sa_mask);
  for (size_t i = 0; i < ENDING; i++) {
    if (!is_heeded(ending[i])) continue;
    sigdelset(&action.sa_mask, ending[i]);
    (void)sigaction(ending[i], &action, NULL);
    sigaddset(&action.sa_mask, ending[i]);
  }
}

void process_end_as_usual(void) {
  for (size_t i = 0; i < ENDING; i++)
    if (is_heeded(ending[i])) set(ending[i], SIG_DFL);
  do_last = NULL;
}

void process_heed_no_end(void) {
  set(SIGCHLD, SIG_DFL);
  for (size_t i = 0; i < ENDING; i++) set(ending[i], SIG_IGN);
}

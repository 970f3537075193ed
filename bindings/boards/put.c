#define _POSIX_C_SOURCE 200809L
#include "put.h"

#include <errno.h>
#include <poll.h>
#include <unistd.h>

bool put_all(int file, const void *bytes, size_t length) {
  const char *next = bytes;
  while (length > 0) {
    const ssize_t written = write(file, next, length);
    if (written < 0 && errno == EINTR) continue;
    if (written < 0 && (errno == EAGAIN || errno == EWOULDBLOCK)) {
      (void)poll(&(struct pollfd){.fd = file, .events = POLLOUT}, 1, -1);
      continue;
    }
    if (written < 0) return false;
    next += written;
    length -= (size_t)written;
  }
  return true;
}

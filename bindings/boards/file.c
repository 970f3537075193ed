#define _GNU_SOURCE
#include "file.h"

#include <errno.h>
#include <fcntl.h>
#include <libgen.h>
#include <limits.h>
#include <stdio.h>
#include <stdlib.h>
#include <string.h>
#include <sys/stat.h>
#include <unistd.h>

#include "process.h"
#include "put.h"
#include "tell.h"

enum { MOST_BYTES = 1 << 20 };

static enum status fault(const char *what, const char *name) {
  return tell(STATUS_FILE, "%s %.*s: %s", what, PATH_MAX, name[0] == '\0' ? "''" : name, strerror(errno));
}

enum status file_read(const char *name, struct bytes *out) {
  *out = (struct bytes){.at = malloc(MOST_BYTES + 1)};
  if (out->at == NULL) return tell_no_memory();
  FILE *file = fopen(name, "rb");
  if (file == NULL) return fault("can't open", name);
  out->length = fread(out->at, 1, MOST_BYTES + 1, file);
  enum status status = STATUS_DONE;
  if (ferror(file)) status = fault("can't read", name);
  else if (out->length > MOST_BYTES) status = tell(STATUS_FILE, "%s has more than %d bytes", name, MOST_BYTES);
  fclose(file);
  return status;
}

/* ---- where a name leads */

/* a name in the folder of another */
static char *beside(const char *place, const char *name) {
  const char *slash = name[0] == '/' ? NULL : strrchr(place, '/');
  const size_t folder = slash == NULL ? 0 : (size_t)(slash + 1 - place);
  char *out = malloc(folder + strlen(name) + 1);
  if (out == NULL) return NULL;
  memcpy(out, place, folder);
  strcpy(out + folder, name);
  return out;
}

/* The name at the end of the links that a name leads through, which may name nothing yet. Null, and errno set, where it has no end. */
static char *follow_links(const char *name) {
  enum { MOST_LINKS = 40 };
  char *place = strdup(name);
  for (int links = 0; place != NULL; links++) {
    char target[PATH_MAX];
    const ssize_t length = readlink(place, target, sizeof target - 1);
    if (length < 0) return place;
    target[length] = '\0';
    char *next = links < MOST_LINKS ? beside(place, target) : NULL;
    if (links == MOST_LINKS) errno = ELOOP;
    free(place);
    place = next;
  }
  return NULL;
}

static bool same_file(const struct stat *a, const struct stat *b) { return a->st_dev == b->st_dev && a->st_ino == b->st_ino; }

bool file_is_output(const char *name) {
  struct stat named, output;
  if (strcmp(name, "-") == 0) return true;
  if (stat(name, &named) != 0 || fstat(STDOUT_FILENO, &output) != 0) return false;
  return same_file(&named, &output) && (S_ISREG(named.st_mode) || S_ISFIFO(named.st_mode));
}

/* ---- writing */

/* Into what is there: a pipe, a device, standard output. Nothing is made in its place. */
static enum status write_straight(const char *name, int file, const void *bytes, size_t length) {
  enum status status = STATUS_DONE;
  if (file < 0 || !put_all(file, bytes, length)) status = fault("can't write", name);
  if (file > STDERR_FILENO && close(file) != 0 && status == STATUS_DONE) status = fault("can't write", name);
  return status;
}

/* Owner, group and mode of the file that it replaces, as far as the process may: rights to act as another owner are not kept without him, and a
 * group that is another has what others have. */
static void keep_rights(int file, const struct stat *old) {
  mode_t mode = old->st_mode & 07777;
  if (fchown(file, old->st_uid, old->st_gid) != 0) {
    mode &= 0777;
    if (fchown(file, (uid_t)-1, old->st_gid) != 0) mode = (mode & 0707) | (mode & 07) << 3;
  }
  (void)fchmod(file, mode);
}

/* mkstemp gives a file to its owner alone; a new file has the mode that the process's mask leaves */
static void open_to_others(int file) {
  const mode_t mask = umask(0);
  umask(mask);
  (void)fchmod(file, 0666 & ~mask);
}

/* the folder too, so that the new name outlives a failing machine; where a folder can't be opened or synchronised nothing is lost but that */
static void synchronise_folder(char *name) {
  const int folder = open(dirname(name), O_RDONLY);
  if (folder < 0) return;
  (void)fsync(folder);
  close(folder);
}

/* writes the file `part`, whose last six letters are made up, and puts it in its place; the first fault is in errno */
static bool write_and_rename(char *part, const char *place, const struct stat *old, const void *bytes, size_t length) {
  if (old != NULL && faccessat(AT_FDCWD, place, W_OK, AT_EACCESS) != 0) return false;
  const int file = mkstemp(part);
  if (file < 0) return false;
  bool done = put_all(file, bytes, length);
  if (done && old != NULL) keep_rights(file, old);
  else if (done) open_to_others(file);
  done = done && fsync(file) == 0;
  int why = errno;
  if (close(file) != 0 && done) done = false, why = errno;
  if (done && rename(part, place) != 0) done = false, why = errno;
  if (done) synchronise_folder(part);
  else unlink(part);
  errno = why;
  return done;
}

/* A signal that is to end the process waits until the file is in its place or removed. */
static enum status replace(const char *name, const char *place, const struct stat *old, const void *bytes, size_t length) {
  sigset_t ending, before;
  char *part = beside(place, ".boards-XXXXXX");
  if (part == NULL) return tell_no_memory();
  process_ending_signals(&ending);
  sigprocmask(SIG_BLOCK, &ending, &before);
  const enum status status = write_and_rename(part, place, old, bytes, length) ? STATUS_DONE : fault("can't write", name);
  free(part);
  sigprocmask(SIG_SETMASK, &before, NULL);
  return status;
}

enum status file_write(const char *name, const void *bytes, size_t length) {
  struct stat old, found;
  if (file_is_output(name)) return write_straight("standard output", STDOUT_FILENO, bytes, length);
  const bool there = stat(name, &old) == 0;
  if (!there && errno != ENOENT) return fault("can't write", name);
  char *place = follow_links(name);
  if (place == NULL) return fault("can't write", name);
  enum status status;
  if (!there) status = replace(name, place, NULL, bytes, length);
  else if (S_ISREG(old.st_mode) && stat(place, &found) == 0 && same_file(&old, &found)) status = replace(name, place, &old, bytes, length);
  /* no file of its own name: also one that is open and removed, as /dev/fd/3 may be */
  else status = write_straight(name, open(name, O_WRONLY | O_TRUNC | O_NOCTTY), bytes, length);
  free(place);
  return status;
}

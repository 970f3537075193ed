/* Files: read whole, written whole or not at all. */
#ifndef BOARDS_FILE_H
#define BOARDS_FILE_H

#include <stdbool.h>
#include <stddef.h>
#include <stdint.h>

#include "status.h"

struct bytes {
  uint8_t *at; /* freed by the caller, never null once read */
  size_t length;
};

/* Reads a file, of at most a mebibyte. What is wrong is told. */
enum status file_read(const char *name, struct bytes *out);

/* Is what is written under this name written to standard output? So it is for `-`, and for the file or pipe that standard output is. */
bool file_is_output(const char *name);

/* Writes a file: under another name in the same folder first, which is put in the file's place once all is on the disk. Where that fails, which
 * is told, the file is as it was, and the other is removed. The place is that to which links lead; mode and owner are kept, where the process may.
 * A pipe or a device is written to as it is. */
enum status file_write(const char *name, const void *bytes, size_t length);

#endif

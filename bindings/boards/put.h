/* Bytes to an open file, all of them. */
#ifndef BOARDS_PUT_H
#define BOARDS_PUT_H

#include <stdbool.h>
#include <stddef.h>

/* Writes all bytes, and waits where a file that does not wait has no room. False where that fails, and errno says why. */
bool put_all(int file, const void *bytes, size_t length);

#endif

/* A source: one word a cell, out of a file or made from a number. */
#ifndef BOARDS_SOURCE_H
#define BOARDS_SOURCE_H

#include <stdint.h>

#include "options.h"
#include "plan.h"
#include "status.h"

/* Writes the source that the options name. What is wrong is told. */
enum status source_read(const struct plan *plan, const struct options *options, uint32_t *out);

#endif

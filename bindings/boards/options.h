/* The command line. */
#ifndef BOARDS_OPTIONS_H
#define BOARDS_OPTIONS_H

#include <stdbool.h>
#include <stdint.h>

#include "status.h"

struct options {
  const char *recipe; /* a file */
  const char *source; /* a file, or null: the words are made from the seed */
  bool seeded;
  uint32_t seed;
  uint32_t route;
  const char *grid;  /* the file to write, or null */
  const char *hosts; /* a file, or null: all is on this machine */
  const char *key;   /* a file, or null */
  bool boarded;      /* this process is one board, and no coordinator */
  uint32_t board;
  bool limited; /* a timeout is given */
  double timeout; /* seconds */
  bool numbered;  /* the run's number is given */
  uint32_t run;
  bool verify;
  bool times;
  uint32_t work; /* rounds of extra work a cell */
};

/* Reads the command line. `over` is set where there is nothing to run: help or version was asked for, and `prints` has it printed. */
enum status options_read(int argc, char **argv, bool prints, struct options *out, bool *over);

#endif

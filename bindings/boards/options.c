#define _POSIX_C_SOURCE 200809L
#include "options.h"

#include <errno.h>
#include <math.h>
#include <stdio.h>
#include <stdlib.h>
#include <string.h>

#include "rolwyddac.h"
#include "tell.h"

static const char usage[] =
    "usage: boards RECIPE (--source FILE | --seed NUMBER) [OPTION..]   coordinates a run, and starts its boards here unless --hosts is given\n"
    "       boards --board NUMBER --hosts FILE [OPTION..]              is one board of whatever run the coordinator has\n"
    "Sweeps a recipe on boards that share no memory, one process a board.\n"
    "  --source FILE      one word a cell, four bytes each, low byte first\n"
    "  --seed NUMBER      words made from this number instead\n"
    "  --route ROUTE      direct (as it is where not given) or indirect\n"
    "  --grid FILE        write the grid there, as the source has it: whole or not at all; - is standard output\n"
    "  --hosts FILE       where they are: a line host:port for the coordinator, then one a board\n"
    "  --key FILE         a secret of 32 bytes or more that all have, by which packets are signed; asked for beyond loopback\n"
    "  --board NUMBER     be this board\n"
    "  --timeout SECONDS  how long no board may come further, 10 where not given; with --board how long it asks for a job, for ever where not given\n"
    "  --run NUMBER       makes another run of the same source; 0 where not given\n"
    "  --no-verify        do not hold the grid to the sweep of one processor (--verify, as it is where not given)\n"
    "  --work ROUNDS      extra work for each cell, to measure with; the grid stays the same\n"
    "  --times            print how long the run and the sweep took\n"
    "  --help, --version\n"
    "Exit: 0 done, 1 refused by the engine, 2 usage, 3 timeout, 4 damaged mail, 5 a board lost, 6 grid differs,\n"
    "      7 a file can't be read or written, 8 no memory, process or socket\n";

enum option { SOURCE, SEED, ROUTE, GRID, HOSTS, KEY, BOARD, TIMEOUT, RUN, VERIFY, NO_VERIFY, WORK, TIMES, HELP, VERSION };

/* getopt_long is not asked: it takes an abbreviation for an option, and takes no option behind RECIPE where POSIXLY_CORRECT is set */
static const struct name {
  const char *text;
  enum option option;
  bool valued;
} names[] = {
    {"--source", SOURCE, true},
    {"--seed", SEED, true},
    {"--route", ROUTE, true},
    {"--grid", GRID, true},
    {"--hosts", HOSTS, true},
    {"--key", KEY, true},
    {"--board", BOARD, true},
    {"--timeout", TIMEOUT, true},
    {"--run", RUN, true},
    {"--verify", VERIFY, false},
    {"--no-verify", NO_VERIFY, false},
    {"--work", WORK, true},
    {"--times", TIMES, false},
    {"--help", HELP, false},
    {"--version", VERSION, false},
};

/* a whole number of 32 bits, digits alone */
static enum status read_number(const char *option, const char *text, uint32_t *out) {
  char *end = NULL;
  errno = 0;
  const unsigned long long value = strtoull(text, &end, 10);
  if (text[0] < '0' || text[0] > '9' || *end != '\0' || errno != 0 || value > UINT32_MAX)
    return tell(STATUS_USAGE, "--%s %s: not a whole number from 0 to 4294967295", option, text);
  *out = (uint32_t)value;
  return STATUS_DONE;
}

static enum status read_seconds(const char *text, double *out) {
  char *end = NULL;
  *out = strtod(text, &end);
  if (end == text || *end != '\0' || !isfinite(*out) || *out < 0.01 || *out > 1e6)
    return tell(STATUS_USAGE, "--timeout %s: not a number of seconds from 0.01 to 1000000", text);
  return STATUS_DONE;
}

static enum status read_route(const char *text, uint32_t *out) {
  *out = strcmp(text, "indirect") == 0 ? ROLWYDDAC_INDIRECT : ROLWYDDAC_DIRECT;
  if (*out == ROLWYDDAC_DIRECT && strcmp(text, "direct") != 0) return tell(STATUS_USAGE, "--route %s: neither direct nor indirect", text);
  return STATUS_DONE;
}

static enum status take(enum option option, const char *text, struct options *out) {
  switch (option) {
    case SOURCE: out->source = text; return STATUS_DONE;
    case SEED: out->seeded = true; return read_number("seed", text, &out->seed);
    case ROUTE: return read_route(text, &out->route);
    case GRID: out->grid = text; return STATUS_DONE;
    case HOSTS: out->hosts = text; return STATUS_DONE;
    case KEY: out->key = text; return STATUS_DONE;
    case BOARD: out->boarded = true; return read_number("board", text, &out->board);
    case TIMEOUT: out->limited = true; return read_seconds(text, &out->timeout);
    case RUN: out->numbered = true; return read_number("run", text, &out->run);
    case VERIFY: out->verify = true; return STATUS_DONE;
    case NO_VERIFY: out->verify = false; return STATUS_DONE;
    case WORK: return read_number("work", text, &out->work);
    case TIMES: out->times = true; return STATUS_DONE;
    case HELP:
    case VERSION: break;
  }
  return STATUS_DONE;
}

static void print(enum option option) {
  if (option == HELP) fputs(usage, stdout);
  else printf("boards, Rolwyddac %s\n", rolwyddac_version());
}

/* the words of the command line that are not read yet */
struct words {
  int left;
  char **next;
};

/* the option that a word is, whole, or up to its `=`; null where it is none */
static const struct name *find(const char *word) {
  const size_t length = strcspn(word, "=");
  for (size_t i = 0; i < sizeof names / sizeof *names; i++)
    if (strlen(names[i].text) == length && strncmp(names[i].text, word, length) == 0) return &names[i];
  return NULL;
}

/* the next word is an option: which one, and its value, which stands behind `=` or is the word after it */
static enum status read_option(struct words *words, enum option *option, const char **value) {
  const char *word = *words->next++;
  const struct name *name = find(word);
  words->left--;
  if (name == NULL) return tell(STATUS_USAGE, "%s: no such option; --help lists them", word);
  *option = name->option;
  *value = strchr(word, '=');
  if (*value != NULL && !name->valued) return tell(STATUS_USAGE, "%s: this option has no value", word);
  if (*value != NULL) ++*value;
  if (*value != NULL || !name->valued) return STATUS_DONE;
  if (words->left == 0) return tell(STATUS_USAGE, "%s: its value is missing", word);
  *value = *words->next++;
  words->left--;
  return STATUS_DONE;
}

static bool is_option(const char *word) { return word[0] == '-' && word[1] != '\0'; }

/* all words; those that are no options are recipes, and behind `--` all are */
static enum status read_words(struct words words, bool prints, struct options *out, int *recipes, bool *over) {
  bool closed = false;
  while (words.left > 0) {
    enum option option = HELP;
    const char *value = NULL;
    if (closed || !is_option(*words.next)) {
      out->recipe = *words.next++;
      words.left--;
      ++*recipes;
      continue;
    }
    closed = strcmp(*words.next, "--") == 0;
    if (closed) {
      words.next++;
      words.left--;
      continue;
    }
    enum status status = read_option(&words, &option, &value);
    if (status != STATUS_DONE) return status;
    *over = option == HELP || option == VERSION;
    if (*over && prints) print(option);
    if (*over) return STATUS_DONE;
    status = take(option, value, out);
    if (status != STATUS_DONE) return status;
  }
  return STATUS_DONE;
}

/* what is asked for, and what is not */
static enum status hold_together(const struct options *out, int recipes) {
  const bool sourced = out->seeded || out->source != NULL;
  if (out->boarded && (out->hosts == NULL || recipes != 0 || sourced || out->grid != NULL))
    return tell(STATUS_USAGE, "--board goes with --hosts, and without recipe, source and grid; --help has more");
  if (out->boarded) return STATUS_DONE;
  if (recipes != 1) return tell(STATUS_USAGE, "one recipe is asked for, %d given; --help has more", recipes);
  if (out->seeded == (out->source != NULL)) return tell(STATUS_USAGE, "either --source or --seed is asked for; --help has more");
  return STATUS_DONE;
}

enum status options_read(int argc, char **argv, bool prints, struct options *out, bool *over) {
  *out = (struct options){.route = ROLWYDDAC_DIRECT, .timeout = 10, .verify = true};
  *over = false;
  int recipes = 0;
  const struct words words = {argc > 0 ? argc - 1 : 0, argv + 1};
  const enum status status = read_words(words, prints, out, &recipes, over);
  return status != STATUS_DONE || *over ? status : hold_together(out, recipes);
}

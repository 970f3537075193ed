/* What is to be done: the recipe's plan, the source and the run's number. One process reads the files; every board has all of it. */
#ifndef BOARDS_MPI_JOB_H
#define BOARDS_MPI_JOB_H

#include <stdint.h>

#include "file.h"
#include "options.h"
#include "plan.h"
#include "status.h"
#include "transport.h"

struct job {
  struct bytes recipe;
  struct plan plan;
  uint32_t *source;
  uint32_t run;
};

/* Reads the job, or has it from the process that does. What is wrong is told by that process alone. job_free is called in any case. */
enum status job_read(struct job *out, const struct options *options, struct transport *transport);

void job_free(struct job *job);

#endif

#define _POSIX_C_SOURCE 200809L
#include "job.h"

#include <stdlib.h>
#include <time.h>
#include <unistd.h>

#include "source.h"
#include "tell.h"

/* all have the reader's status: none goes on where the reader does not */
static enum status agreed(struct transport *transport, enum status status) {
  transport_share(transport, &status, sizeof status);
  return status;
}

static enum status read_recipe(struct job *job, const struct options *options, struct transport *transport) {
  const bool reads = transport_reads(transport);
  enum status status = agreed(transport, reads ? file_read(options->recipe, &job->recipe) : STATUS_DONE);
  if (status != STATUS_DONE) return status;
  transport_share(transport, &job->recipe.length, sizeof job->recipe.length);
  if (!reads) job->recipe.at = malloc(job->recipe.length + 1);
  if (job->recipe.at == NULL) return tell_no_memory();
  transport_share(transport, job->recipe.at, job->recipe.length);
  return plan_make(&job->plan, job->recipe.at, job->recipe.length, options->route);
}

/* another one for each run: mail of an earlier one is told */
static uint32_t make_run_number(void) {
  struct timespec t;
  clock_gettime(CLOCK_REALTIME, &t);
  return (uint32_t)t.tv_sec * 1000003u ^ (uint32_t)t.tv_nsec ^ (uint32_t)getpid() << 16;
}

enum status job_read(struct job *out, const struct options *options, struct transport *transport) {
  *out = (struct job){0};
  enum status status = read_recipe(out, options, transport);
  if (status != STATUS_DONE) return status;
  const size_t cells = plan_cells(&out->plan);
  out->source = malloc(cells * sizeof *out->source);
  if (out->source == NULL) return tell_no_memory();
  if (transport_reads(transport)) status = source_read(&out->plan, options, out->source);
  status = agreed(transport, status);
  if (status != STATUS_DONE) return status;
  transport_share(transport, out->source, cells * sizeof *out->source);
  out->run = options->numbered ? options->run : make_run_number();
  transport_share(transport, &out->run, sizeof out->run);
  return STATUS_DONE;
}

void job_free(struct job *job) {
  plan_free(&job->plan);
  free(job->recipe.at);
  free(job->source);
}

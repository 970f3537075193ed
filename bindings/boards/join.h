/* A board that was not started by the coordinator asks it for its job, until it has it. */
#ifndef BOARDS_JOIN_H
#define BOARDS_JOIN_H

#include <stdbool.h>
#include <stdint.h>

#include "job.h"
#include "net.h"
#include "status.h"

/* Asks for at most so many seconds. job_free is called in any case. */
enum status join(struct net *net, uint32_t me, uint64_t life, double seconds, struct job *out, bool *again);

#endif

/* What a process finds when it is started, and must not be surprised by: closed files, and signals that others have set. */
#ifndef BOARDS_PROCESS_H
#define BOARDS_PROCESS_H

#include <signal.h>
#include <stdbool.h>

/* Before anything else is opened or started: standard input, output and error are taken, and a write that fails is an error, no signal. */
void process_prepare(void);

/* The signals by which a run is ended from outside; those that were ignored at the start, as under nohup, are none. */
void process_ending_signals(sigset_t *out);

/* Has this done before such a signal ends the process; what a handler of signals may not do it may not either. The first process of a container is not ended
 * by one that it sends itself: it has the status that a shell gives. */
void process_before_end(void (*last)(void));

/* Such a signal ends the process, and nothing is done before. */
void process_end_as_usual(void);

/* Such a signal does nothing: another process, which ends this one, has it too. */
void process_heed_no_end(void);

#endif

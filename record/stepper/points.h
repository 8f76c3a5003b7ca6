// The functions that are named on the command line in place of marks in the source: --begin-at, --end-at and --ack-at.
#ifndef PX86_POINTS_H
#define PX86_POINTS_H

#include <stdbool.h>

#include "objects.h"
#include "threads.h"

// Before the recording: puts a breakpoint where the function of --begin-at is mapped by now. After exec all is new.
void find_begin(void);
void forget_begin(void);
// A thread has stopped by SIGTRAP. Whether this came of such a breakpoint; *is_there says whether the function
// returned.
bool meet_begin(const struct thread *thread, bool *is_there);
// Takes these breakpoints out of a process that the program has made, if it has a memory of its own.
void clean_child(pid_t child);
// Why the recording did not begin, if the function is to blame; else NULL.
const char *why_no_begin(void);

// While it is recorded: looks for the functions in code that is newly mapped.
void look_for_points(const struct object *object);
// Fails if the function of --ack-at is in no code that was mapped: then nothing could acknowledge.
void want_acknowledging(void);
// Why the recording did not end at the function of --end-at, up to the end of the program; NULL if there is none.
const char *why_no_end(void);
// The thread is at its instruction. If this is where a function is called or has returned to, what belongs to it is
// done.
void meet_points(struct thread *thread);

#endif

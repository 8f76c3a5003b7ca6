// System calls that a thread of the program makes for the recorder.
#ifndef PX86_INJECT_H
#define PX86_INJECT_H

#include <stdint.h>

#include "threads.h"

// The thread is stopped, at no entry of a system call, and is left as it was. Answers what the call did, or -ENOSYS if
// it could not be made.
int64_t call_in_program(const struct thread *thread, long number, uint64_t first, uint64_t second, uint64_t third);

#endif

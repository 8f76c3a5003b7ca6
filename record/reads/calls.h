// System calls of a checker: what the kernel reads of the file for it, and where it maps the file.
#ifndef PX86_CALLS_H
#define PX86_CALLS_H

#include "tasks.h"

// Has this process, which becomes the checker, stop at calls that may open the file, or do what is not followed. Answers
// whether it could.
bool filter_calls(void);
// A task has stopped at such a call, or at the beginning or the end of any.
void take_filtered_call(struct task *task);
void take_call(struct task *task);
// Whether debug registers are to watch, where they are enough.
void mean_watches(bool are_meant);
// Whether the next system call of a task is to be looked at.
bool looks_at_calls(const struct task *task);

#endif

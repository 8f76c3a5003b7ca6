// Debug registers that watch asked words. A store of a watched word counts as a read.
#ifndef PX86_WATCHES_H
#define PX86_WATCHES_H

#include <stdbool.h>

#include "tasks.h"

// Whether debug registers work here: a child is watched that reads a word.
bool watches_work(void);
// Watches the asked words that are not read yet, in all maps of a task. Answers false if there are too many, or none can be.
bool set_watches(struct task *task);
// Notes what debug registers tell of a task that has stopped. Answers whether they tell something.
bool take_watches(struct task *task);
// A signal that a task gets. If it is of a fault of its own, all that is watched counts as read: an instruction that faults does not end, and
// then no debug register tells what it has loaded, as a divisor that is 0.
void take_fault_beside_watches(struct task *task, int signal);

#endif

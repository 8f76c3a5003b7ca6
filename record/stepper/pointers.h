// Which variables of the program point into the region: so a reader of the log can tell what lies where.
#ifndef PX86_POINTERS_H
#define PX86_POINTERS_H

#include "threads.h"

// Looks through the variables of the program's own file, and notes those that it has not noted yet.
void note_pointers(void);
// The same, if the thread's instruction is a system call behind which the region is no longer mapped.
void note_pointers_before(const struct thread *thread);

#endif

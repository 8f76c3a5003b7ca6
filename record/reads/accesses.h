// Accesses of a checker to closed pages of the file.
#ifndef PX86_ACCESSES_H
#define PX86_ACCESSES_H

#include <stdbool.h>
#include <stdint.h>

#include "tasks.h"

// So many accesses to a page are looked at one by one. Then all of its words are taken as read.
void set_most_traps(unsigned count);
// Bytes at these addresses are read.
void read_addresses(const struct task *task, uint64_t start, uint64_t end);
// Looks at a task that has stopped with SIGSEGV. Answers whether it was an access to a closed page, which has been made.
bool take_fault(struct task *task);

#endif

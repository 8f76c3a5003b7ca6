// What is closed while a thread runs at full speed: the region, to stores; code that is not understood, to being run.
// An access faults, and its instruction is stepped while it is open.
#ifndef PX86_GUARD_H
#define PX86_GUARD_H

#include <stdbool.h>
#include <stdint.h>

#include "threads.h"

enum guarded { REGION, CODE, GUARDED };

// Looks up which pages these are, and how the program has protected them. They must be open.
void find_guarded(void);
// Whether this is closed, and has the address.
bool is_closed_at(enum guarded what, uint64_t address);
bool is_open(enum guarded what);
// By the thread, which is stopped. False if it cannot be closed: then the program has to be stepped.
bool close_pages(const struct thread *thread);
void open_pages(const struct thread *thread, enum guarded what);
// How often the region was closed.
uint64_t closings(void);

#endif

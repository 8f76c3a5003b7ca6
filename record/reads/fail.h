// What px86-reads does when it cannot go on: it says why, and ends with status 3.
#ifndef PX86_FAIL_H
#define PX86_FAIL_H

#include <stddef.h>

__attribute__((noreturn, format(printf, 1, 2))) void fail(const char *format, ...);
// Memory that is 0, or no return.
void *allocate(size_t count, size_t size);

#endif

// How long an instruction is, where it may go, and whether a recording has to see it. This is much quicker than
// libcapstone, which is asked for the few instructions that are stepped.
#ifndef PX86_LENGTHS_H
#define PX86_LENGTHS_H

#include <stdbool.h>
#include <stddef.h>
#include <stdint.h>

struct outline {
    unsigned length; // in bytes; 0 if it is not known here, or is no instruction
    // It may be a fence, a flush or a locked operation, or begins a transaction (which a step breaks off).
    bool is_watched;
    bool is_branch;  // to `target`, counted from its own first byte
    bool is_end;     // what is behind it is not run next
    int64_t target;
};

// The outline of the instruction at the first of these bytes, of which there are so many.
struct outline outline_of(const uint8_t *bytes, size_t count);

#endif

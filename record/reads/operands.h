// What an instruction reads and stores, of what its operands say.
#ifndef PX86_OPERANDS_H
#define PX86_OPERANDS_H

#include <stdbool.h>
#include <stddef.h>
#include <stdint.h>
#include <sys/user.h>

enum { LONGEST_INSTRUCTION = 15, MOST_SPANS = 2 };

// Addresses START up to END.
struct span {
    uint64_t start, end;
};

struct access {
    bool is_known; // it accesses nothing but these. Otherwise nothing is to be taken from here
    struct span reads[MOST_SPANS];
    int read_count;
    struct span store; // it stores all of these bytes, and reads none of them; empty, if there are none
    struct span flushed; // it flushes a line, and reads nothing of it
};

void start_operands(void);
void find_access(const uint8_t *bytes, size_t count, const struct user_regs_struct *registers, struct access *access);
bool is_within(const struct span *span, uint64_t address);
// Whether an access is meant to touch this address.
bool is_meant(const struct access *access, uint64_t address);

#endif

// The code that the program has mapped, and the breakpoints in it. See "At full speed" in LOG.md.
#ifndef PX86_CODE_H
#define PX86_CODE_H

#include <stdbool.h>
#include <stddef.h>
#include <stdint.h>

#include "objects.h"

// Looks up what is mapped as code. What is new is looked through, and gets breakpoints.
void find_code(void);
// What is mapped from start to end may be changed. Its breakpoints are taken out, and it is new at the next look.
void forget_code(uint64_t start, uint64_t end);
void take_out_all_breakpoints(void);
// A breakpoint more, at an instruction.
void watch_place(uint64_t address);

bool has_breakpoint(uint64_t address);
// While its instruction is stepped the breakpoint is away.
void lift_breakpoint(uint64_t address);
void put_breakpoint(uint64_t address);
// Of bytes that were read at an address, those of the program in the place of breakpoints.
void hide_breakpoints(uint64_t address, uint8_t *bytes, size_t count);

// Whether an address is in code that is stepped whole: it was not understood, or may change.
bool is_stepped_code(uint64_t address);
// Whether it was foreseen that an instruction may begin here, and, if it is to be seen, it is. If not, the code was not
// understood after all.
bool is_foreseen(uint64_t address, bool is_watched);
// The next piece of such code from an address on. False if there is none.
bool next_stepped_code(uint64_t *start, uint64_t *end, int *protection);
// Where there is a `syscall` instruction that may be run, or 0.
uint64_t system_call_place(void);
// The file whose code is at an address, or NULL.
const struct object *object_of(uint64_t address);

#endif

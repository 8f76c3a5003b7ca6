// The frames of functions, as their files say (.eh_frame): where each function is, and where its caller goes on.
#ifndef PX86_FRAMES_H
#define PX86_FRAMES_H

#include <stdbool.h>
#include <stdint.h>

#include "objects.h"

// Calls `use` for each function that has a frame: its first address, and that behind it. (The frames of signals are
// left out: they begin before their function.)
void each_frame(const struct object *object, void (*use)(void *context, uint64_t start, uint64_t end), void *context);

enum { FRAME_REGISTERS = 17, FRAME_STACK = 7, FRAME_BACK = 16 };
// The registers of a function, as DWARF numbers them: 7 is the stack pointer, 16 the instruction pointer.
struct frame {
    uint64_t values[FRAME_REGISTERS];
    uint32_t known; // a bit for each register that is
    bool is_signal; // it has not called, but was interrupted at its instruction
};

// Goes on to the caller's. False if the file does not say, or there is none.
bool next_frame(const struct object *object, struct frame *frame);

#endif

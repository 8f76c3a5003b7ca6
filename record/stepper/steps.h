// How a thread goes on while it is recorded: by a step, or at full speed up to where it has to be stepped.
#ifndef PX86_STEPS_H
#define PX86_STEPS_H

#include "threads.h"

// The recording begins.
void begin_steps(void);
// The thread, which is stopped, goes on. Answers how many instructions of its turn this takes.
unsigned go_on(struct thread *thread);
// Whether a stop of the thread was made by the recorder, or only says that the instruction is to be stepped otherwise.
// Then nothing more is to be done.
bool is_own_stop(struct thread *thread, int signal, int event);

// Whether the thread, which is stopped, is at an instruction at which another one may have its turn: a store to the region, a
// flush of it, a fence, or a locked operation. Not if it has its turn all the same.
bool is_at_point(struct thread *thread);
// Notes the thread's registers and its instruction, and nothing else.
void look_at_instruction(struct thread *thread);
// The thread is at an instruction, which is looked at.
void begin_instruction(struct thread *thread);
// It is done, and recorded.
void end_instruction(struct thread *thread);
// Passes over a flush that is not run. It is recorded all the same.
void skip_instruction(struct thread *thread);
// The recording has ended: what the thread sees is as it was.
void leave(const struct thread *thread);
uint64_t steps_done(void);

#endif

// What an instruction or a system call has done to the region, as lines of the log.
#ifndef PX86_EFFECTS_H
#define PX86_EFFECTS_H

#include "threads.h"

// The marks of px86-mark.h: a system call that no kernel has, with the mark as its first argument.
enum { MARK = 0x50583836, MARK_END = 0, MARK_BEGIN = 1, MARK_ACKNOWLEDGE = 2 };

// The thread's instruction is about to run.
void prepare_instruction(struct thread *thread);
// It is done.
void record_instruction(struct thread *thread);
// Whether behind this system call the program may have to be stepped: it forbids itself others, those of the recorder too,
// or the kernel may store later, while the region is closed.
bool may_forbid_full_speed(const struct user_regs_struct *before);
// Whether it sleeps for a time, or lets others run.
bool is_pause(const struct user_regs_struct *before);
// Whether it is one of the latter.
bool stores_later(const struct user_regs_struct *before);
// It is a system call: what it may change is opened.
void prepare_system_call(struct thread *thread);
// It was one.
void record_system_call(struct thread *thread);
// As log_event, once the region was compared, if anything may have stored to it unseen.
__attribute__((format(printf, 3, 4)))
void event(struct thread *thread, const char *word, const char *format, ...);
// The thread's instruction, or what its name is given for, may have stored to the region unseen.
__attribute__((format(printf, 2, 3)))
void doubt(const struct thread *thread, const char *format, ...);
// If anything may have, compares the region with what was recorded. A difference is refused.
void settle_doubts(void);
// Compares them in any case.
void compare(const struct thread *thread);

#endif

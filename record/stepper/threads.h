// The threads of the program, of which one runs at a time while it is recorded. So a store is visible to all of them
// before the next instruction of any, and the log has the order in which stores became visible.
#ifndef PX86_THREADS_H
#define PX86_THREADS_H

#include <stdbool.h>
#include <stddef.h>
#include <stdint.h>
#include <sys/types.h>
#include <sys/user.h>

#include "decode.h"

struct thread {
    pid_t id;
    int number;
    // AWAY: it runs, or waits in a system call.
    enum { STOPPED, AWAY } state;
    bool in_system_call; // it ran freely, and is between the entry and the exit of a system call
    bool has_begun;      // it is at its instruction, which is not yet done
    bool is_entering;    // its next step enters the handler of a signal, and runs no instruction
    bool has_fenced;     // by a fence or a clflush, and has stored nothing since that others may see
    bool is_native;      // it runs at full speed
    bool is_repeating;   // it runs a repeated string instruction to its end
    bool has_stored;     // to the region, by the instruction that is just done
    bool hands_over;     // to other threads: it waits in a loop, or says so
    bool has_turn;       // its next instruction may be one at which another thread has its turn, and is done all the same
    bool is_at_region;   // this instruction concerns the region
    unsigned idle_points; // how many of these it has passed since it stored to the region
    bool needs_region, needs_code; // its instruction met what was closed
    unsigned steps_left; // so many instructions are stepped before it may run at full speed
    uint64_t closings;   // of the region, when its system call began
    int signal;          // to be delivered when it runs on, or 0
    struct user_regs_struct registers; // before its instruction
    struct instruction instruction;
    uint64_t stack_start, stack_end;
};

enum { TRAP_FLAG = 1 << 8 };

// Runs the program to its end, and answers its status: that of exit, or 128 and the number of a signal.
int run_program(void);
// Ends the recording; the program runs on.
void end_recording(const struct thread *thread);
// Ends the recording and the program.
void end_here(const struct thread *thread);
// Whether the recording has begun, all threads are stopped, and it has not ended.
bool is_recording(void);
// Whether another thread has begun in the recording.
bool has_several_threads(void);
bool has_one_thread(void);
// The threads that have not ended, in the order in which they began.
struct thread *const *all_threads(size_t *count);
// Waits until each thread is stopped, or asleep in a system call. So the next choice does not depend on the kernel's pace.
void settle(void);
// The thread goes on (steps.h), and no other one.
unsigned take_turn(struct thread *thread);
// The thread of this number of the kernel's, or NULL.
struct thread *find_thread(pid_t id);
// Waits for a report of any thread, and deals with it.
void wait_any(void);
// For one of this thread.
void wait_for_thread(const struct thread *thread);
// For one of any, but not long. Answers whether there was one.
bool wait_a_while(void);
// Whether an address is on the thread's own stack.
bool is_on_stack(struct thread *thread, uint64_t address);
// As waitpid, with the limit of time.
pid_t wait_for(pid_t id, int *status, int flags);
// The registers of a thread that is stopped.
struct user_regs_struct registers_of(const struct thread *thread);

#endif

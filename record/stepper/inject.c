#include "inject.h"

#include <errno.h>
#include <signal.h>
#include <string.h>
#include <sys/ptrace.h>
#include <sys/wait.h>

#include "code.h"
#include "program.h"

// No signal of the program is delivered while it makes the call, but for that of the step.
static const uint64_t all_but_trap = ~(1ul << (SIGTRAP - 1));

static void set_registers(const struct thread *thread, const struct user_regs_struct *registers)
{
    if (ptrace(PTRACE_SETREGS, thread->id, NULL, registers))
        stop(FAILED, "the registers cannot be written: %s", strerror(errno));
}

// Steps over the instruction. (Another signal may be reported before, a SIGTRAP of the program's own too.)
static void step_over(const struct thread *thread, uint64_t place)
{
    int status;
    do {
        if (ptrace(PTRACE_SINGLESTEP, thread->id, NULL, NULL) ||
            (wait_for(thread->id, &status, 0), !WIFSTOPPED(status)) || status >> 16 == PTRACE_EVENT_EXIT)
            stop(FAILED, "the program was killed");
    } while (status >> 8 != SIGTRAP || registers_of(thread).rip == place);
}

int64_t call_in_program(const struct thread *thread, long number, uint64_t first, uint64_t second, uint64_t third)
{
    uint64_t mask, place = system_call_place();
    struct user_regs_struct before = registers_of(thread), call = before;
    if (place == 0 || ptrace(PTRACE_GETSIGMASK, thread->id, sizeof mask, &mask))
        return -ENOSYS;
    call.rip = place;
    call.rax = (unsigned long)number;
    call.rdi = first;
    call.rsi = second;
    call.rdx = third;
    // So the kernel takes no other call that was broken off for this one.
    call.orig_rax = (unsigned long)-1;
    set_registers(thread, &call);
    ptrace(PTRACE_SETSIGMASK, thread->id, sizeof all_but_trap, &all_but_trap);
    step_over(thread, place);
    call = registers_of(thread);
    set_registers(thread, &before);
    ptrace(PTRACE_SETSIGMASK, thread->id, sizeof mask, &mask);
    return (int64_t)call.rax;
}

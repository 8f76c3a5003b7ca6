#include "steps.h"

#include <errno.h>
#include <signal.h>
#include <stdio.h>
#include <string.h>
#include <sys/ptrace.h>
#include <sys/syscall.h>
#include <sys/wait.h>
#include <time.h>

#include "code.h"
#include "effects.h"
#include "guard.h"
#include "log.h"
#include "options.h"
#include "pointers.h"
#include "points.h"
#include "program.h"
#include "region.h"

static uint64_t steps;
static uint64_t unforeseen;   // how many instructions were not foreseen (--step)
static bool steps_all;        // nothing can be closed
static bool is_fault_ignored; // SIGSEGV, by the program

uint64_t steps_done(void)
{
    return steps;
}

void begin_steps(void)
{
    is_fault_ignored = ignores(program, SIGSEGV);
    steps_all = is_filtered(program);
}

// ---- an instruction

// The kernel does a system call again that it has broken off.
static bool is_broken_off(const struct user_regs_struct *registers)
{
    long result = (long)registers->rax;
    return (long)registers->orig_rax >= 0 && result >= -516 && result <= -512;
}

void look_at_instruction(struct thread *thread)
{
    thread->registers = registers_of(thread);
    decode(thread->registers.rip, &thread->instruction);
}

void begin_instruction(struct thread *thread)
{
    enum { SIZE_OF_SYSCALL = 2 };
    thread->registers = registers_of(thread);
    if (thread->in_system_call || is_broken_off(&thread->registers)) {
        thread->registers.rip -= SIZE_OF_SYSCALL;
        thread->registers.rax = thread->registers.orig_rax;
        thread->in_system_call = false;
    }
    decode(thread->registers.rip, &thread->instruction);
    note_pointers_before(thread);
    prepare_instruction(thread);
    thread->has_begun = true;
    thread->is_entering = thread->signal && catches(thread->id, thread->signal);
}

// How many instructions more are stepped. Another store is likely behind one, and a few steps cost what it costs to
// close the region and to open it again. Code that is stepped whole is, up to its end.
static void count_step(struct thread *thread)
{
    enum { STEPS_BEHIND_A_STORE = 4 };
    if (thread->steps_left > 0)
        thread->steps_left--;
    if (thread->has_stored && !thread->instruction.is_locked)
        thread->idle_points = 0;
    if (thread->has_stored)
        thread->steps_left = STEPS_BEHIND_A_STORE;
    else if (thread->steps_left == 0 && is_stepped_code(thread->instruction.address))
        thread->steps_left = is_stepped_code(registers_of(thread).rip);
    thread->has_stored = thread->needs_region = thread->needs_code = false;
}

// Each instruction that is stepped shows whether the code was understood as it is. If not, others of the kind may have
// been missed.
static void check_foreseen(const struct thread *thread)
{
    const struct instruction *it = &thread->instruction;
    if (is_foreseen(it->address, it->is_locked || it->kind == FENCE || it->kind == FLUSH))
        return;
    if (!options.step)
        refuse(thread, "the code was read wrongly here, and events may be missing: record it with --step");
    if (unforeseen++ == 0)
        fprintf(stderr, "px86-record: note: without --step the instruction at 0x%lx would be refused\n", it->address);
}

void end_instruction(struct thread *thread)
{
    const struct user_regs_struct *before = &thread->registers;
    thread->has_begun = thread->has_turn = false;
    if (thread->is_entering)
        return;
    steps++;
    check_foreseen(thread);
    record_instruction(thread);
    count_step(thread);
    if (thread->instruction.kind == SYSTEM_CALL && before->rax == SYS_rt_sigaction && before->rdi == SIGSEGV)
        is_fault_ignored = ignores(program, SIGSEGV);
    thread->hands_over |= thread->instruction.kind == SYSTEM_CALL && is_pause(before);
    if (thread->instruction.kind == SYSTEM_CALL && may_forbid_full_speed(before))
        steps_all |= stores_later(before) || is_filtered(program);
}

static void set_place(const struct thread *thread, uint64_t address)
{
    struct user_regs_struct registers = registers_of(thread);
    registers.rip = address;
    if (ptrace(PTRACE_SETREGS, thread->id, NULL, &registers))
        stop(FAILED, "the registers cannot be written: %s", strerror(errno));
}

// Passes over a flush that is not run. It is recorded all the same.
void skip_instruction(struct thread *thread)
{
    set_place(thread, thread->instruction.address + thread->instruction.length);
    end_instruction(thread);
}

// Whether the signal of a fault is neither blocked nor ignored. If it is, the kernel takes its handler away at a fault.
static bool hears_faults(const struct thread *thread)
{
    uint64_t mask;
    if (is_fault_ignored || ptrace(PTRACE_GETSIGMASK, thread->id, sizeof mask, &mask))
        return false;
    return !(mask >> (SIGSEGV - 1) & 1);
}

// Opens what the step may need: what its instruction has met, or all, where a fault would not do or the kernel stores
// the frame of a signal.
static void open_for_step(const struct thread *thread)
{
    if (is_open(REGION) && is_open(CODE))
        return;
    bool needs_all = thread->is_entering || !hears_faults(thread);
    if (needs_all || thread->needs_region)
        open_pages(thread, REGION);
    if (needs_all || thread->needs_code)
        open_pages(thread, CODE);
}

// Where popf was stepped, the kernel takes the trap flag of later steps for the program's own, and leaves it set.
static void drop_trap_flag(const struct thread *thread)
{
    struct user_regs_struct registers = registers_of(thread);
    if (!(registers.eflags & TRAP_FLAG))
        return;
    registers.eflags &= ~(unsigned long)TRAP_FLAG;
    if (ptrace(PTRACE_SETREGS, thread->id, NULL, &registers))
        stop(FAILED, "the registers cannot be written: %s", strerror(errno));
}

static void resume(struct thread *thread, enum __ptrace_request request)
{
    int signal = thread->signal;
    if (request != PTRACE_SINGLESTEP)
        drop_trap_flag(thread);
    thread->signal = 0;
    thread->state = AWAY;
    if (ptrace(request, thread->id, NULL, (long)signal) && errno != ESRCH)
        stop(FAILED, "the program cannot go on: %s", strerror(errno));
}

// Where a repeated string instruction goes on.
static uint64_t behind(const struct thread *thread)
{
    return thread->instruction.address + thread->instruction.length;
}

// Whether a repeated string instruction may run to its end at once, by a breakpoint behind it.
static bool may_repeat(const struct thread *thread)
{
    return thread->instruction.is_repeated && !thread->signal && !has_breakpoint(thread->instruction.address) &&
           !is_stepped_code(behind(thread)) && is_foreseen(behind(thread), false);
}

static void repeat(struct thread *thread)
{
    if (!has_breakpoint(behind(thread)))
        put_breakpoint(behind(thread));
    thread->is_repeating = true;
    resume(thread, PTRACE_CONT);
    wait_for_thread(thread);
}

// All repetitions are done, or some of them before another stop. Answers whether all are.
static bool end_repeating(struct thread *thread)
{
    struct user_regs_struct registers = registers_of(thread);
    bool is_done = registers.rip == behind(thread) + 1;
    thread->is_repeating = false;
    if (!has_breakpoint(behind(thread)))
        lift_breakpoint(behind(thread));
    if (is_done)
        set_place(thread, behind(thread));
    end_instruction(thread);
    return is_done;
}

// A thread that sleeps for a time has others go on, and takes no time. Otherwise their order would depend on the clock.
static void shorten_sleep(const struct thread *thread)
{
    struct user_regs_struct registers = registers_of(thread);
    if (thread->instruction.kind != SYSTEM_CALL || !has_several_threads() || !is_pause(&thread->registers))
        return;
    registers.rax = SYS_sched_yield;
    if (ptrace(PTRACE_SETREGS, thread->id, NULL, &registers))
        stop(FAILED, "the registers cannot be written: %s", strerror(errno));
}

static void step_once(struct thread *thread)
{
    uint64_t address = thread->instruction.address;
    bool has_lifted = has_breakpoint(address) && !thread->is_entering;
    shorten_sleep(thread);
    if (has_lifted)
        lift_breakpoint(address);
    resume(thread, PTRACE_SINGLESTEP);
    if (thread->instruction.kind != SYSTEM_CALL)
        wait_for_thread(thread);
    if (has_lifted && is_recording())
        put_breakpoint(address);
}

static void step(struct thread *thread)
{
    // A system call that has begun is not interrupted to open anything.
    if (!thread->has_begun) {
        begin_instruction(thread);
        meet_points(thread);
        if (!is_recording())
            return;
        open_for_step(thread);
    }
    if (options.skip_flushes && thread->instruction.kind == FLUSH && !thread->signal)
        skip_instruction(thread);
    else if (may_repeat(thread))
        repeat(thread);
    else
        step_once(thread);
}

// ---- at full speed

// Whether the thread's next instruction has to be stepped.
static bool must_step(const struct thread *thread)
{
    return options.step || steps_all || thread->has_begun || thread->signal || thread->steps_left > 0 ||
           (thread->has_fenced && has_several_threads()) || !hears_faults(thread);
}

bool is_at_point(struct thread *thread)
{
    uint64_t offset;
    const struct instruction *next = &thread->instruction;
    if (!must_step(thread) || thread->has_begun || thread->has_turn || thread->in_system_call)
        return false;
    look_at_instruction(thread);
    if (is_broken_off(&thread->registers))
        return false;
    uint64_t address = target_address(next, &thread->registers);
    if (next->kind == FENCE)
        thread->is_at_region = true;
    else if (next->kind == FLUSH)
        thread->is_at_region = is_in_region(address & -(uint64_t)LINE, &offset);
    else
        thread->is_at_region =
            next->kind == OTHER && next->target.size > 0 && touches_region(address, next->target.size);
    return thread->is_at_region || next->is_locked;
}

// How long the program's threads have run, of which one runs at a time.
static uint64_t nanoseconds_run(void)
{
    static const uint64_t second = 1000000000;
    struct timespec time = {0};
    clockid_t clock;
    if (clock_getcpuclockid(program, &clock) || clock_gettime(clock, &time))
        stop(FAILED, "the time that the program has run cannot be read");
    return (uint64_t)time.tv_sec * second + (uint64_t)time.tv_nsec;
}

// Runs the thread up to where it has to be stepped. If it meets nothing of the kind for long, it waits in a loop: then
// other threads have their turn. It is the time that it has run that counts, so a machine that is busy changes nothing.
static void run(struct thread *thread)
{
    static const uint64_t most = 10000000;
    pid_t id = thread->id;
    uint64_t begun = nanoseconds_run();
    thread->is_native = true;
    thread->has_turn = false;
    resume(thread, PTRACE_SYSCALL);
    while ((thread = find_thread(id)) && thread->state == AWAY && is_recording())
        if (has_one_thread())
            wait_any();
        else if (!wait_a_while() && !thread->hands_over && nanoseconds_run() - begun > most) {
            thread->hands_over = true;
            ptrace(PTRACE_INTERRUPT, id, NULL, NULL);
        }
}

// Answers how many instructions of the thread's turn this takes.
unsigned go_on(struct thread *thread)
{
    enum { STRETCH = 25 };
    if (!must_step(thread) && close_pages(thread)) {
        run(thread);
        return STRETCH;
    }
    steps_all |= !must_step(thread);
    step(thread);
    return 1;
}

// ---- stops

// The thread is at the entry of a system call, and goes back before it, to be stepped over it.
static void go_back_before_call(struct thread *thread)
{
    enum { SIZE_OF_SYSCALL = 2 };
    int status;
    struct user_regs_struct registers = registers_of(thread);
    uint64_t number = registers.orig_rax;
    registers.orig_rax = (unsigned long)-1;
    if (ptrace(PTRACE_SETREGS, thread->id, NULL, &registers) || ptrace(PTRACE_SYSCALL, thread->id, NULL, NULL))
        stop(FAILED, "a system call cannot be put off: %s", strerror(errno));
    wait_for(thread->id, &status, 0);
    if (!WIFSTOPPED(status) || WSTOPSIG(status) != (SIGTRAP | 0x80))
        stop(FAILED, "the program was killed");
    registers.rip -= SIZE_OF_SYSCALL;
    registers.rax = number;
    if (ptrace(PTRACE_SETREGS, thread->id, NULL, &registers))
        stop(FAILED, "the registers cannot be written: %s", strerror(errno));
}

// Whether it is a breakpoint of the recorder's. Then the thread goes back before it.
static bool is_at_breakpoint(struct thread *thread, int signal)
{
    siginfo_t info;
    uint64_t place = registers_of(thread).rip - 1;
    if (signal != SIGTRAP || !has_breakpoint(place) || ptrace(PTRACE_GETSIGINFO, thread->id, NULL, &info) ||
        info.si_code != SI_KERNEL)
        return false;
    set_place(thread, place);
    return true;
}

// Whether it is a fault at what is closed. Then this is opened before the instruction is stepped.
static bool is_at_closed(struct thread *thread, int signal)
{
    siginfo_t info;
    if (signal != SIGSEGV || ptrace(PTRACE_GETSIGINFO, thread->id, NULL, &info) || info.si_code != SEGV_ACCERR)
        return false;
    bool in_region = is_closed_at(REGION, (uint64_t)info.si_addr), in_code = is_closed_at(CODE, (uint64_t)info.si_addr);
    thread->needs_region |= in_region;
    thread->needs_code |= in_code;
    return in_region || in_code;
}

// A stop that came just behind a breakpoint, before its signal: this is still to come.
static bool has_trap_pending(const struct thread *thread)
{
    uint64_t place = registers_of(thread).rip - 1;
    return (thread->is_native && has_breakpoint(place)) || (thread->is_repeating && place == behind(thread));
}

bool is_own_stop(struct thread *thread, int signal, int event)
{
    bool was_native = thread->is_native;
    if (event == PTRACE_EVENT_STOP && has_trap_pending(thread)) {
        resume(thread, was_native ? PTRACE_SYSCALL : PTRACE_CONT);
        return true;
    }
    thread->is_native = false;
    if (thread->is_repeating && end_repeating(thread))
        return true;
    if (event)
        return false;
    if (signal == (SIGTRAP | 0x80) && was_native)
        go_back_before_call(thread);
    else if (is_at_breakpoint(thread, signal) || is_at_closed(thread, signal))
        thread->has_begun = false;
    else
        return false;
    thread->steps_left += thread->steps_left == 0;
    return true;
}

void leave(const struct thread *thread)
{
    open_pages(thread, REGION);
    open_pages(thread, CODE);
    drop_trap_flag(thread);
}

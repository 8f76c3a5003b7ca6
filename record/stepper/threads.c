#define _GNU_SOURCE
#include "threads.h"

#include <errno.h>
#include <signal.h>
#include <stdlib.h>
#include <string.h>
#include <sys/ptrace.h>
#include <sys/syscall.h>
#include <sys/time.h>
#include <sys/wait.h>
#include <unistd.h>

#include "code.h"
#include "effects.h"
#include "guard.h"
#include "log.h"
#include "options.h"
#include "pointers.h"
#include "points.h"
#include "program.h"
#include "region.h"
#include "start.h"
#include "steps.h"
#include "turns.h"
#include "writes.h"

static enum { BEFORE, RECORDING, AFTER, OVER } phase;

static struct thread **threads; // in the order in which they began; a thread that has ended is taken out
static size_t thread_count;
static int begun_threads; // while it is recorded
static int program_status;
static bool was_compared_at_exit;
static bool was_empty; // the region was mapped, and had no bytes yet
static bool has_child; // the program made a process that is left alone
static char child_command[256]; // what the last of these runs, if it became another program

bool has_several_threads(void)
{
    return begun_threads > 1;
}

bool has_one_thread(void)
{
    return thread_count == 1;
}

bool is_recording(void)
{
    return phase == RECORDING && begun_threads > 0;
}

// ---- the list of threads

struct thread *const *all_threads(size_t *count)
{
    *count = thread_count;
    return threads;
}

struct thread *find_thread(pid_t id)
{
    for (size_t i = 0; i < thread_count; i++)
        if (threads[i]->id == id)
            return threads[i];
    return NULL;
}

static void number_thread(struct thread *thread)
{
    thread->number = begun_threads++;
    log_thread(thread);
}

static struct thread *add_thread(pid_t id)
{
    struct thread *thread = calloc(1, sizeof *thread);
    threads = realloc(threads, (thread_count + 1) * sizeof *threads);
    if (!threads || !thread)
        stop(FAILED, "out of memory");
    threads[thread_count++] = thread;
    thread->id = id;
    thread->state = AWAY;
    thread->steps_left = 1;
    if (is_recording())
        number_thread(thread);
    return thread;
}

static void remove_thread(struct thread *thread)
{
    size_t i = 0;
    while (threads[i] != thread)
        i++;
    memmove(threads + i, threads + i + 1, (--thread_count - i) * sizeof *threads);
    free(thread);
}

// ---- waiting, with a limit of time

static volatile sig_atomic_t is_out_of_time;

static void note_time(int signal)
{
    (void)signal;
    is_out_of_time = 1;
}

static void start_clock(void)
{
    struct sigaction action = {.sa_handler = note_time};
    // It rings again, in case that the first comes just before a wait.
    struct itimerval limit = {{0, 100000}, {options.seconds, 0}};
    sigaction(SIGALRM, &action, NULL);
    setitimer(ITIMER_REAL, &limit, NULL);
}

static void check_time(void)
{
    if (!is_out_of_time)
        return;
    if (thread_count == 0)
        stop(FAILED, "the program did not begin within %u seconds", options.seconds);
    stop(FAILED,
         "the program did not end within %u seconds (a longer --time helps, or less that is recorded: --begin-at, "
         "--end-at)",
         options.seconds);
}

pid_t wait_for(pid_t id, int *status, int flags)
{
    for (;;) {
        check_time();
        pid_t found = waitpid(id, status, flags | __WALL);
        if (found >= 0)
            return found;
        if (errno != EINTR)
            stop(FAILED, "the program is lost: %s", strerror(errno));
    }
}

// ---- registers and signals

struct user_regs_struct registers_of(const struct thread *thread)
{
    struct user_regs_struct registers;
    // It fails only if the thread was killed, and then nothing more is recorded of it.
    if (ptrace(PTRACE_GETREGS, thread->id, NULL, &registers))
        return thread->registers;
    return registers;
}

bool is_on_stack(struct thread *thread, uint64_t address)
{
    uint64_t stack = thread->registers.rsp;
    if (stack < thread->stack_start || stack >= thread->stack_end) {
        struct mapping mapping;
        FILE *mappings = open_mappings(program);
        while (next_mapping(mappings, &mapping))
            if (stack >= mapping.start && stack < mapping.end) {
                thread->stack_start = mapping.start;
                thread->stack_end = mapping.end;
            }
        fclose(mappings);
    }
    return address >= thread->stack_start && address < thread->stack_end;
}

// Whether a SIGTRAP comes of a step, and is no signal of the program.
static bool is_of_step(const struct thread *thread)
{
    siginfo_t info;
    return ptrace(PTRACE_GETSIGINFO, thread->id, NULL, &info) == 0 && info.si_code > 0 && info.si_code != SI_KERNEL;
}

// ---- the beginning and the end of the recording

static void note_report(pid_t id, int status);

void wait_for_thread(const struct thread *thread)
{
    int status;
    pid_t id = wait_for(thread->id, &status, 0);
    note_report(id, status);
}

void wait_any(void)
{
    int status;
    pid_t id = wait_for(-1, &status, 0);
    note_report(id, status);
}

static sigset_t signals_of_reports(void)
{
    sigset_t signals;
    sigemptyset(&signals);
    sigaddset(&signals, SIGCHLD);
    return signals;
}

bool wait_a_while(void)
{
    static const struct timespec slice = {0, 200000};
    sigset_t signals = signals_of_reports();
    int status;
    pid_t id;
    while ((id = wait_for(-1, &status, WNOHANG)) == 0)
        if (sigtimedwait(&signals, NULL, &slice) < 0)
            return false;
    note_report(id, status);
    return true;
}

static bool is_any_running(void)
{
    for (size_t i = 0; i < thread_count; i++)
        if (threads[i]->state == AWAY && thread_state(threads[i]->id) != 'Z')
            return true;
    return false;
}

static void begin_recording(void)
{
    phase = RECORDING;
    for (size_t i = 0; i < thread_count; i++)
        if (threads[i]->state == AWAY)
            ptrace(PTRACE_INTERRUPT, threads[i]->id, NULL, NULL);
    while (is_any_running())
        wait_any();
    read_shadow();
    begin_log();
    note_code();
    find_code();
    find_guarded();
    begin_steps();
    begun_threads = 0;
    for (size_t i = 0; i < thread_count; i++)
        number_thread(threads[i]);
}

void end_recording(const struct thread *thread)
{
    char state = thread_state(program);
    if (state && state != 'Z')
        note_pointers();
    want_acknowledging();
    compare(thread);
    log_memory();
    phase = AFTER;
}

void end_here(const struct thread *thread)
{
    enum { KILLED = 128 + SIGKILL };
    end_recording(thread);
    phase = OVER;
    program_status = KILLED;
    kill(program, SIGKILL);
}

// The thread is leaving a system call, and the recording has not begun.
static void see_native_call(struct thread *thread)
{
    struct user_regs_struct registers = registers_of(thread);
    uint64_t offset;
    long number = (long)registers.orig_rax;
    if (options.begin_at) {
        if (number == SYS_mmap || number == SYS_mprotect || number == SYS_mremap)
            find_begin();
    } else if (options.begin) {
        if (number != MARK || registers.rdi != MARK_BEGIN)
            return;
        if (!find_region() && !is_file_open())
            stop(FAILED, "the mark BEGIN came before %s was mapped (MAP_SHARED) or open", region_name());
        begin_recording();
    } else if (number == SYS_mmap || number == SYS_mremap || number == SYS_ftruncate || number == SYS_fallocate) {
        bool is_there = find_region();
        bool is_new = was_empty || is_in_region(registers.rax, &offset);
        was_empty = !is_there && touches_region(0, UINT64_MAX);
        // Another thread may just have mapped it: then the end of its call is still to come.
        if (is_there && !is_new && thread_count == 1)
            refuse(thread, "%s was mapped before the file had this name", region_name());
        if (is_there && is_new)
            begin_recording();
    }
}

// The thread is entering one: the first write to the file begins the recording, mapped or not.
static void see_native_write(const struct thread *thread)
{
    struct user_regs_struct registers = registers_of(thread);
    if (options.begin || options.begin_at || !is_write((long)registers.orig_rax) ||
        !is_descriptor_of_file((int)registers.rdi))
        return;
    find_region();
    begin_recording();
}

// ---- reports of ptrace

static void see_new_process(struct thread *thread)
{
    unsigned long id = 0;
    ptrace(PTRACE_GETEVENTMSG, thread->id, NULL, &id);
    if (is_thread_of_program((pid_t)id)) {
        if (!find_thread((pid_t)id))
            add_thread((pid_t)id);
    } else if (phase == RECORDING || (phase == BEFORE && find_region()))
        refuse(
            thread,
            "the program makes a second process, which is not followed: record that alone, or end before it by --end-at");
}

static void see_exec(struct thread *thread)
{
    if (phase == RECORDING || options.symbol)
        refuse(thread, "the program becomes another program (exec): record that alone, or end before it by --end-at");
    // The other threads are gone. This one has the first one's number, and is in execve.
    while (thread_count > 1)
        remove_thread(threads[threads[0] == thread]);
    thread->in_system_call = true;
    open_memory();
    forget_begin();
    find_begin();
}

// The function of --begin-at has returned.
static void begin_here(void)
{
    if (!find_region() && !is_file_open())
        stop(FAILED, "%s returned before %s was mapped (MAP_SHARED) or open", options.begin_at, region_name());
    begin_recording();
}

static void see_signal(struct thread *thread, int signal)
{
    bool is_there;
    if (phase == BEFORE && signal == SIGTRAP && meet_begin(thread, &is_there)) {
        if (is_there)
            begin_here();
        return;
    }
    if (signal == SIGILL && phase == RECORDING && !thread->has_begun)
        begin_instruction(thread);
    bool is_missing = signal == SIGILL && phase == RECORDING && thread->instruction.kind == FLUSH;
    if (is_missing && thread->has_begun)
        skip_instruction(thread);
    else if (signal != SIGTRAP || !is_of_step(thread)) {
        thread->signal = signal;
        thread->has_begun = false;
    } else if (thread->has_begun)
        end_instruction(thread);
}

static void see_end(struct thread *thread, int status)
{
    if (thread->id == program) {
        program_status = WIFEXITED(status) ? WEXITSTATUS(status) : 128 + WTERMSIG(status);
        if (!is_recording() && phase != AFTER && why_no_begin())
            stop(FAILED, "%s %s: the program ended first, with status %d", options.begin_at, why_no_begin(),
                 program_status);
        if (!is_recording() && phase != AFTER)
            stop(FAILED, "%s %s: the program ended first, with status %d%s%s%s%s",
                 options.begin ? "the mark" : region_name(),
                 options.begin ? "BEGIN never came" : "was neither mapped (MAP_SHARED) nor written to", program_status,
                 has_child ? " (it started a child, and a child is not followed: give the child's own command" : "",
                 child_command[0] ? ", which was " : "", child_command, has_child ? ")" : "");
        if (is_recording() && WIFEXITED(status) && why_no_end())
            stop(FAILED, "%s %s: the program ended first, with status %d", options.end_at, why_no_end(), program_status);
        if (is_recording() && region_is_file())
            end_recording(thread);
        else if (is_recording() && was_compared_at_exit)
            log_memory();
        else if (is_recording())
            refuse(thread, "the program was killed before the region could be compared");
        phase = OVER;
    }
    remove_thread(thread);
}

static void see_stop(struct thread *thread, int signal, int event)
{
    thread->state = STOPPED;
    if (is_recording() && is_own_stop(thread, signal, event))
        return;
    switch (event) {
    case PTRACE_EVENT_CLONE:
    case PTRACE_EVENT_FORK:
    case PTRACE_EVENT_VFORK:
        see_new_process(thread);
        break;
    case PTRACE_EVENT_EXEC:
        see_exec(thread);
        break;
    case PTRACE_EVENT_EXIT:
        if (is_recording()) {
            note_pointers();
            compare(thread);
            was_compared_at_exit = true;
        }
        thread->state = AWAY;
        ptrace(PTRACE_CONT, thread->id, NULL, NULL);
        break;
    case PTRACE_EVENT_STOP:
        thread->has_begun = false;
        break;
    default:
        if (signal == (SIGTRAP | 0x80)) {
            thread->in_system_call = !thread->in_system_call;
            if (phase == BEFORE && thread->in_system_call)
                see_native_write(thread);
            else if (phase == BEFORE)
                see_native_call(thread);
        } else
            see_signal(thread, signal);
    }
}

// A process that the program made before the recording, or after it, is left alone; before it, once it runs a command of its own.
static void see_child(pid_t id, int status)
{
    int event = status >> 16;
    has_child = true;
    if (!WIFSTOPPED(status))
        return;
    if (event == PTRACE_EVENT_EXEC)
        read_command(id, child_command, sizeof child_command);
    else
        clean_child(id);
    if (event == PTRACE_EVENT_STOP && WSTOPSIG(status) == SIGTRAP && phase == BEFORE) {
        ptrace(PTRACE_SETOPTIONS, id, NULL, PTRACE_O_TRACEEXEC);
        ptrace(PTRACE_CONT, id, NULL, NULL);
    } else
        ptrace(PTRACE_DETACH, id, NULL, (long)(event ? 0 : WSTOPSIG(status)));
}

static void note_report(pid_t id, int status)
{
    struct thread *thread = find_thread(id);
    if (!thread && !is_thread_of_program(id)) {
        see_child(id, status);
        return;
    }
    if (!thread)
        thread = add_thread(id);
    if (WIFEXITED(status) || WIFSIGNALED(status))
        see_end(thread, status);
    else
        see_stop(thread, WSTOPSIG(status), status >> 16);
}

// ---- turns

// Whether a thread runs: it is neither stopped, nor asleep, nor has it ended and is not waited for as long as others run.
static bool is_busy(const struct thread *thread)
{
    char state = thread->state == AWAY ? thread_state(thread->id) : 'S';
    return state != 'S' && (state != 'Z' || thread->id != program);
}

void settle(void)
{
    // Of two threads the one that is looked at last may have woken the other one meanwhile: so all are looked at twice.
    for (int quiet = 0; quiet < 2;) {
        int status;
        pid_t id;
        bool is_quiet = true;
        while (thread_count > 0 && (id = wait_for(-1, &status, WNOHANG)) > 0) {
            note_report(id, status);
            is_quiet = false;
        }
        for (size_t i = 0; i < thread_count; i++)
            is_quiet &= !is_busy(threads[i]);
        quiet = is_quiet ? quiet + 1 : 0;
        if (!is_quiet)
            usleep(20);
    }
}

unsigned take_turn(struct thread *thread)
{
    was_compared_at_exit = false;
    return go_on(thread);
}

// The program is left as it was, and runs on without the recorder.
static void leave_program(void)
{
    for (size_t i = 0; i < thread_count && phase == AFTER; i++)
        if (threads[i]->state == STOPPED)
            leave(threads[i]);
    if (phase == AFTER)
        take_out_all_breakpoints();
}

// All threads run freely, from one report to the next.
static void run_freely(enum __ptrace_request request)
{
    for (size_t i = 0; i < thread_count; i++) {
        struct thread *thread = threads[i];
        if (thread->state != STOPPED)
            continue;
        thread->state = AWAY;
        thread->has_begun = false;
        ptrace(request, thread->id, NULL, (long)thread->signal);
        thread->signal = 0;
    }
    wait_any();
}

// ---- the program

static void start_first_thread(void)
{
    enum { CODE_OF_64_BITS = 0x33 };
    sigset_t signals = signals_of_reports();
    start_program();
    sigprocmask(SIG_BLOCK, &signals, NULL);
    struct thread *thread = add_thread(program);
    thread->state = STOPPED;
    thread->in_system_call = true; // execve
    if (registers_of(thread).cs != CODE_OF_64_BITS)
        stop(FAILED, "%s is no program of 64 bits", program_path());
}

// A symbol is recorded from the program's own beginning on.
static void begin_with_symbol(void)
{
    run_to(entry_point());
    threads[0]->in_system_call = false;
    begin_recording();
}

int run_program(void)
{
    start_clock();
    start_first_thread();
    if (options.symbol)
        choose_symbol(options.symbol);
    find_begin();
    if (options.symbol && !options.begin && !options.begin_at)
        begin_with_symbol();
    while (phase == BEFORE)
        run_freely(PTRACE_SYSCALL);
    run_in_turns();
    leave_program();
    while (phase == AFTER)
        run_freely(PTRACE_CONT);
    return program_status;
}

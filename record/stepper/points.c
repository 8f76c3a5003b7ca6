#define _GNU_SOURCE
#include "points.h"

#include <errno.h>
#include <fcntl.h>
#include <linux/kcmp.h>
#include <signal.h>
#include <stdlib.h>
#include <string.h>
#include <sys/ptrace.h>
#include <sys/syscall.h>
#include <sys/wait.h>
#include <unistd.h>

#include "code.h"
#include "effects.h"
#include "log.h"
#include "options.h"
#include "program.h"

// Where a function that was called goes on: the address, and where on the stack this is.
struct call {
    uint64_t back, place;
};

static bool find_call(const struct thread *thread, struct call *call)
{
    call->place = registers_of(thread).rsp;
    return read_memory(call->place, &call->back, sizeof call->back);
}

static bool has_returned(const struct call *call, const struct user_regs_struct *registers)
{
    return registers->rip == call->back && registers->rsp == call->place + sizeof call->back;
}

// ---- before the recording

// Breakpoints of their own: the code is not looked through yet.
struct early {
    uint64_t address;
    uint8_t byte; // the program's own
};
static struct early *earlies;
static size_t early_count;
static bool was_found;
static bool is_called;
static struct call first_call;

enum { BREAKPOINT = 0xcc };

static void write_byte(uint64_t address, uint8_t byte)
{
    write_memory(address, &byte, 1);
}

static void add_early(uint64_t address)
{
    uint8_t byte;
    for (size_t i = 0; i < early_count; i++)
        if (earlies[i].address == address)
            return;
    if (!read_memory(address, &byte, 1))
        return;
    earlies = realloc(earlies, (early_count + 1) * sizeof *earlies);
    if (!earlies)
        stop(FAILED, "out of memory");
    earlies[early_count++] = (struct early){address, byte};
    write_byte(address, BREAKPOINT);
}

static void take_out_earlies(void)
{
    for (size_t i = 0; i < early_count; i++)
        write_byte(earlies[i].address, earlies[i].byte);
    early_count = 0;
}

static void use_begin(void *context, uint64_t address)
{
    const struct object *object = context;
    was_found = true;
    add_early(address + object->bias);
}

void find_begin(void)
{
    struct mapping mapping;
    struct object object;
    if (!options.begin_at || is_called)
        return;
    FILE *mappings = open_mappings(program);
    while (next_mapping(mappings, &mapping)) {
        if (!mapping.executable || mapping.shared || !open_object(&mapping, &object))
            continue;
        each_function(&object, options.begin_at, use_begin, &object);
        close_object(&object);
    }
    fclose(mappings);
}

void forget_begin(void)
{
    early_count = 0;
    is_called = false;
}

static void set_place(const struct thread *thread, uint64_t address)
{
    struct user_regs_struct registers = registers_of(thread);
    registers.rip = address;
    if (ptrace(PTRACE_SETREGS, thread->id, NULL, &registers))
        stop(FAILED, "the registers cannot be written: %s", strerror(errno));
}

// It is called: from now on where it returns to is looked for alone.
static void await_return(const struct thread *thread)
{
    take_out_earlies();
    if (!find_call(thread, &first_call))
        stop(FAILED, "--begin-at: the stack cannot be read");
    is_called = true;
    add_early(first_call.back);
}

// Another call has returned to the same place.
static void pass_over(const struct thread *thread)
{
    int status;
    write_byte(earlies[0].address, earlies[0].byte);
    ptrace(PTRACE_SINGLESTEP, thread->id, NULL, NULL);
    wait_for(thread->id, &status, 0);
    if (!WIFSTOPPED(status))
        stop(FAILED, "the program was killed");
    write_byte(earlies[0].address, BREAKPOINT);
}

bool meet_begin(const struct thread *thread, bool *is_there)
{
    struct user_regs_struct registers = registers_of(thread);
    size_t i = 0;
    registers.rip--;
    while (i < early_count && earlies[i].address != registers.rip)
        i++;
    *is_there = false;
    if (i == early_count)
        return false;
    set_place(thread, registers.rip);
    if (!is_called)
        await_return(thread);
    else if (has_returned(&first_call, &registers)) {
        take_out_earlies();
        *is_there = true;
    } else
        pass_over(thread);
    return true;
}

void clean_child(pid_t child)
{
    char path[64];
    if (early_count == 0 || syscall(SYS_kcmp, program, child, KCMP_VM, 0, 0) == 0)
        return;
    snprintf(path, sizeof path, "/proc/%d/mem", child);
    int memory = open(path, O_WRONLY | O_CLOEXEC);
    for (size_t i = 0; i < early_count; i++)
        if (pwrite(memory, &earlies[i].byte, 1, (off_t)earlies[i].address) != 1)
            stop(FAILED, "the memory of a child cannot be written: %s", strerror(errno));
    close(memory);
}

const char *why_no_begin(void)
{
    if (!options.begin_at)
        return NULL;
    return was_found ? "never returned" : "was never mapped";
}

// ---- while it is recorded

enum point { ENDS, ACKNOWLEDGES };
static struct entry {
    uint64_t address;
    enum point point;
} * entries;
static size_t entry_count;

// The calls of the function of --ack-at that have not returned.
static struct pending {
    pid_t thread;
    struct call call;
} * calls;
static size_t call_count;

static void add_entry(uint64_t address, enum point point)
{
    for (size_t i = 0; i < entry_count; i++)
        if (entries[i].address == address && entries[i].point == point)
            return;
    entries = realloc(entries, (entry_count + 1) * sizeof *entries);
    if (!entries)
        stop(FAILED, "out of memory");
    entries[entry_count++] = (struct entry){address, point};
}

static void use_end(void *context, uint64_t address)
{
    const struct object *object = context;
    add_entry(address + object->bias, ENDS);
    watch_place(address + object->bias);
}

static void use_acknowledging(void *context, uint64_t address)
{
    const struct object *object = context;
    add_entry(address + object->bias, ACKNOWLEDGES);
    watch_place(address + object->bias);
}

void look_for_points(const struct object *object)
{
    if (options.end_at)
        each_function(object, options.end_at, use_end, (void *)object);
    if (options.ack_at)
        each_function(object, options.ack_at, use_acknowledging, (void *)object);
}

static bool is_there(enum point point)
{
    for (size_t i = 0; i < entry_count; i++)
        if (entries[i].point == point)
            return true;
    return false;
}

void want_acknowledging(void)
{
    if (options.ack_at && !is_there(ACKNOWLEDGES))
        stop(FAILED, "%s was never mapped: nothing could acknowledge", options.ack_at);
}

const char *why_no_end(void)
{
    if (!options.end_at)
        return NULL;
    return is_there(ENDS) ? "was never called while it was recorded" : "was never mapped";
}

static void add_call(const struct thread *thread)
{
    struct call call;
    if (!find_call(thread, &call))
        refuse(thread, "the stack cannot be read");
    // It is begun again: by a signal, say.
    for (size_t i = 0; i < call_count; i++)
        if (calls[i].thread == thread->id && calls[i].call.place == call.place)
            return;
    calls = realloc(calls, (call_count + 1) * sizeof *calls);
    if (!calls)
        stop(FAILED, "out of memory");
    calls[call_count++] = (struct pending){thread->id, call};
    watch_place(call.back);
}

// Calls that have returned here, and those that were left (by longjmp, say), whose places the stack has no more.
static void end_calls(struct thread *thread)
{
    const struct user_regs_struct *registers = &thread->registers;
    for (size_t i = call_count; i-- > 0;) {
        if (calls[i].thread != thread->id || calls[i].call.place >= registers->rsp)
            continue;
        if (has_returned(&calls[i].call, registers))
            event(thread, "acknowledge", "-");
        memmove(calls + i, calls + i + 1, (--call_count - i) * sizeof *calls);
    }
}

void meet_points(struct thread *thread)
{
    end_calls(thread);
    for (size_t i = 0; i < entry_count; i++) {
        if (entries[i].address != thread->instruction.address)
            continue;
        if (entries[i].point == ACKNOWLEDGES)
            add_call(thread);
        else {
            end_recording(thread);
            return;
        }
    }
}

#include <errno.h>
#include <stdio.h>
#include <string.h>
#include <sys/mman.h>
#include <sys/syscall.h>

#include "code.h"
#include "effects.h"
#include "guard.h"
#include "log.h"
#include "options.h"
#include "program.h"
#include "region.h"
#include "writes.h"

// What a system call means for the region.
enum meaning {
    ANYTHING,    // may store anywhere (through pointers that are no arguments, too), so the region is compared
    NOTHING,     // stores nothing to memory of the program
    MAPS,        // changes what is mapped, or (madvise) what private pages have
    SYNCS,       // msync
    SYNCS_FILE,  // makes the file of a descriptor durable
    WRITES,      // writes bytes to the file of a descriptor, and answers how many
    WRITES_TO_0, // changes the file of a descriptor: the argument of this number. That may be the region's file
    WRITES_TO_2,
    MARKS,
};

static const struct {
    long number;
    enum meaning meaning;
    const char *name;
} system_calls[] = {
    {SYS_write, WRITES, "write"},
    {SYS_pwrite64, WRITES, "pwrite64"},
    {SYS_writev, WRITES, "writev"},
    {SYS_pwritev, WRITES, "pwritev"},
    {SYS_pwritev2, WRITES, "pwritev2"},
    {SYS_sendfile, WRITES_TO_0, "sendfile"},
    {SYS_ftruncate, WRITES_TO_0, "ftruncate"},
    {SYS_fallocate, WRITES_TO_0, "fallocate"},
    {SYS_copy_file_range, WRITES_TO_2, "copy_file_range"},
    {SYS_splice, WRITES_TO_2, "splice"},
    {SYS_mmap, MAPS, "mmap"},
    {SYS_munmap, MAPS, "munmap"},
    {SYS_mremap, MAPS, "mremap"},
    {SYS_mprotect, MAPS, "mprotect"},
    {SYS_pkey_mprotect, MAPS, "pkey_mprotect"},
    {SYS_remap_file_pages, MAPS, "remap_file_pages"},
    {SYS_shmat, MAPS, "shmat"},
    {SYS_shmdt, MAPS, "shmdt"},
    {SYS_msync, SYNCS, "msync"},
    {SYS_fsync, SYNCS_FILE, "fsync"},
    {SYS_fdatasync, SYNCS_FILE, "fdatasync"},
    {MARK, MARKS, "mark"},
    {SYS_read, ANYTHING, "read"},
    {SYS_pread64, ANYTHING, "pread64"},
    {SYS_readv, ANYTHING, "readv"},
    {SYS_preadv, ANYTHING, "preadv"},
    {SYS_recvfrom, ANYTHING, "recvfrom"},
    {SYS_recvmsg, ANYTHING, "recvmsg"},
    {SYS_truncate, ANYTHING, "truncate"},
    {SYS_brk, NOTHING, "brk"},
    {SYS_close, NOTHING, "close"},
    {SYS_exit, NOTHING, "exit"},
    {SYS_exit_group, NOTHING, "exit_group"},
    {SYS_futex, NOTHING, "futex"},
    {SYS_getpid, NOTHING, "getpid"},
    {SYS_gettid, NOTHING, "gettid"},
    {SYS_lseek, NOTHING, "lseek"},
    {SYS_madvise, MAPS, "madvise"},
    {SYS_open, NOTHING, "open"},
    {SYS_openat, NOTHING, "openat"},
    {SYS_sched_yield, NOTHING, "sched_yield"},
    {SYS_sendto, NOTHING, "sendto"},
    {SYS_tgkill, NOTHING, "tgkill"},
    {SYS_unlink, NOTHING, "unlink"},
};

static enum meaning meaning_of(long number, const char **name)
{
    static char other[32];
    for (size_t i = 0; i < sizeof system_calls / sizeof *system_calls; i++)
        if (system_calls[i].number == number) {
            *name = system_calls[i].name;
            return system_calls[i].meaning;
        }
    snprintf(other, sizeof other, "number %ld", number);
    *name = other;
    return ANYTHING;
}

static void record_mark(struct thread *thread)
{
    switch (thread->registers.rdi) {
    case MARK_ACKNOWLEDGE:
        event(thread, "acknowledge", "%llu", thread->registers.rsi);
        break;
    case MARK_END:
        end_recording(thread);
    }
}

static void record_msync(struct thread *thread)
{
    enum { PAGE = 4096 };
    uint64_t start = thread->registers.rdi, offset, length;
    uint64_t end = start + ((thread->registers.rsi + PAGE - 1) & -(uint64_t)PAGE);
    // MS_ASYNC begins nothing and waits for nothing.
    if (!(thread->registers.rdx & MS_SYNC))
        return;
    while (next_part(&start, end, &offset, &length)) {
        if (offset >= end_of_file(offset))
            continue;
        if (length > end_of_file(offset) - offset)
            length = end_of_file(offset) - offset;
        event(thread, "msync", "0x%lx 0x%lx", offset, length);
    }
}

// Whether an argument is an address in the region.
static bool has_argument_in_region(const struct user_regs_struct *before)
{
    uint64_t offset;
    return is_in_region(before->rdi, &offset) || is_in_region(before->rsi, &offset) ||
           is_in_region(before->rdx, &offset) || is_in_region(before->r10, &offset) ||
           is_in_region(before->r8, &offset) || is_in_region(before->r9, &offset);
}

static bool writes_bytes(long number)
{
    return number == SYS_write || number == SYS_writev || number == SYS_pwrite64 || number == SYS_sendto ||
           number == SYS_sendmsg;
}

static void record_effect(struct thread *thread, enum meaning meaning, const char *name, bool is_done)
{
    const struct user_regs_struct *before = &thread->registers;
    uint64_t offset;
    switch (meaning) {
    case NOTHING:
        break;
    case MARKS:
        record_mark(thread);
        break;
    case MAPS:
        if (before->rax == SYS_mmap && is_descriptor_of_successor((int)before->r8))
            refuse(thread, "the program maps another file that has the name of the region");
        find_region();
        note_code();
        find_code();
        find_guarded();
        break;
    case SYNCS:
        if (is_done)
            record_msync(thread);
        break;
    case SYNCS_FILE:
        if (is_done && is_descriptor_of_region((int)before->rdi, &offset))
            event(thread, "msync", "0x%lx 0x%lx", offset, end_of_file(offset) - offset);
        break;
    case WRITES:
        if (is_descriptor_of_successor((int)before->rdi))
            refuse(thread, "the program writes to another file that has the name of the region");
        break;
    case WRITES_TO_0:
        if (is_descriptor_of_region((int)before->rdi, &offset))
            doubt(thread, "the system call %s", name);
        break;
    case WRITES_TO_2:
        if (is_descriptor_of_region((int)before->rdx, &offset))
            doubt(thread, "the system call %s", name);
        break;
    case ANYTHING:
        doubt(thread, "the system call %s", name);
    }
}

// ---- what is opened for a call

static bool has_argument_that_is_closed(const struct user_regs_struct *before)
{
    return is_closed_at(REGION, before->rdi) || is_closed_at(REGION, before->rsi) ||
           is_closed_at(REGION, before->rdx) || is_closed_at(REGION, before->r10) || is_closed_at(REGION, before->r8) ||
           is_closed_at(REGION, before->r9);
}

// Whether the kernel may store to what is closed: through an argument, through what an argument points to, or, at the
// end of a thread, to its list of locks.
static bool may_store(const struct user_regs_struct *before, enum meaning meaning)
{
    if (before->rax == SYS_exit || before->rax == SYS_exit_group)
        return true;
    return meaning == ANYTHING || (meaning != SYNCS && meaning != MARKS && has_argument_that_is_closed(before));
}

// The addresses that a call may map anew, or leave without what was stored there. A call with an address of its own has
// it as the fourth or fifth argument.
static void forget_what_changes(const struct user_regs_struct *before)
{
    enum { LENGTH_OF_ANY = 1 << 12 };
    uint64_t length = before->rsi;
    if (before->rax == SYS_mmap && !(before->r10 & MAP_FIXED))
        return;
    if (before->rax == SYS_shmat || before->rax == SYS_shmdt) {
        forget_code(0, UINT64_MAX);
        return;
    }
    forget_code(before->rdi, before->rdi + (length ? length : LENGTH_OF_ANY));
    if (before->rax == SYS_mremap)
        forget_code(before->r8, before->r8 + before->rdx);
}

bool stores_later(const struct user_regs_struct *before)
{
    return before->rax == SYS_io_uring_setup || before->rax == SYS_io_setup;
}

bool may_forbid_full_speed(const struct user_regs_struct *before)
{
    return before->rax == SYS_seccomp || before->rax == SYS_prctl || stores_later(before);
}

bool is_pause(const struct user_regs_struct *before)
{
    return before->rax == SYS_nanosleep || before->rax == SYS_clock_nanosleep || before->rax == SYS_sched_yield;
}

void prepare_system_call(struct thread *thread)
{
    const char *name;
    const struct user_regs_struct *before = &thread->registers;
    enum meaning meaning = meaning_of((long)before->rax, &name);
    if (may_store(before, meaning) || meaning == MAPS)
        open_pages(thread, REGION);
    if (meaning == MAPS || may_forbid_full_speed(before))
        open_pages(thread, CODE);
    if (meaning == MAPS)
        forget_what_changes(before);
    thread->closings = closings();
}

// A call that waited while another thread ran at full speed may have met the region closed.
static void refuse_what_was_closed(const struct thread *thread, enum meaning meaning, const char *name, long result)
{
    if (result == -EFAULT && may_store(&thread->registers, meaning) && closings() != thread->closings)
        refuse(thread, "the system call %s may have stored to the region", name);
}

void record_system_call(struct thread *thread)
{
    const char *name;
    const struct user_regs_struct *before = &thread->registers;
    long number = (long)before->rax, result = (long)registers_of(thread).rax;
    enum meaning meaning = meaning_of(number, &name);
    refuse_what_was_closed(thread, meaning, name, result);
    record_sizes(thread);
    if (meaning == WRITES && result > 0)
        record_write(thread, (uint64_t)result);
    if (opens(number) && result >= 0)
        record_opened(thread, (int)result);
    if (is_read(number) && result > 0)
        record_read(thread, (uint64_t)result);
    if (has_argument_in_region(before) && meaning != MAPS && meaning != SYNCS) {
        doubt(thread, "the system call %s", name);
        settle_doubts();
    }
    if (writes_bytes(number) && result > 0 && (int)before->rdi == options.acknowledging)
        event(thread, "acknowledge", "-");
    record_effect(thread, meaning, name, result == 0);
}

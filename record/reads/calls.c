#define _GNU_SOURCE
#include "calls.h"

#include <linux/audit.h>
#include <linux/filter.h>
#include <linux/seccomp.h>
#include <sched.h>
#include <stddef.h>
#include <stdio.h>
#include <string.h>
#include <sys/mman.h>
#include <sys/prctl.h>
#include <sys/syscall.h>
#include <sys/wait.h>
#include <unistd.h>

#include "accesses.h"
#include "watches.h"
#include "words.h"

// ---- what a call does

enum meaning {
    PLAIN,       // its arguments that are pointers point to bytes without pointers; if one points into a map, all is read
    READS,       // read, pread
    WRITES,      // write, pwrite, sendto
    VECTORS,     // of several pieces of memory: all is read if it is of the file or of a map
    COPIES,      // between descriptors
    CONTROLS,    // ioctl
    SEEKS,       // lseek
    BEGINS_TASK, // fork, clone ..
    MAPS,        // reads nothing
    MOVES_MAP,   // mremap ..
    UNKNOWN,     // not followed: all is read
};

// Why all is read then.
static const char *const reasons[UNKNOWN + 1] = {
    [PLAIN] = "is given a place of the mapping",
    [VECTORS] = "reads or writes by a vector",
    [COPIES] = "copies between descriptors",
    [MOVES_MAP] = "moves the mapping",
    [UNKNOWN] = "is not followed",
};

static enum meaning meaning_of(uint64_t number)
{
    switch (number) {
    case SYS_read: case SYS_pread64:
        return READS;
    case SYS_write: case SYS_pwrite64: case SYS_sendto:
        return WRITES;
    case SYS_readv: case SYS_preadv: case SYS_preadv2: case SYS_writev: case SYS_pwritev: case SYS_pwritev2: case SYS_sendmsg:
    case SYS_sendmmsg: case SYS_recvmsg: case SYS_recvmmsg: case SYS_vmsplice:
        return VECTORS;
    case SYS_sendfile: case SYS_splice: case SYS_copy_file_range: case SYS_tee:
        return COPIES;
    case SYS_ioctl:
        return CONTROLS;
    case SYS_lseek:
        return SEEKS;
    case SYS_clone: case SYS_clone3: case SYS_fork: case SYS_vfork:
        return BEGINS_TASK;
    case SYS_mmap: case SYS_munmap: case SYS_mprotect: case SYS_pkey_mprotect: case SYS_msync: case SYS_madvise: case SYS_mincore:
    case SYS_mlock: case SYS_munlock: case SYS_mlock2:
        return MAPS;
    case SYS_mremap: case SYS_remap_file_pages:
        return MOVES_MAP;
    case SYS_process_vm_readv: case SYS_process_vm_writev: case SYS_ptrace: case SYS_io_uring_setup: case SYS_io_setup:
    case SYS_userfaultfd: case SYS_shmat: case SYS_bpf: case SYS_unshare: case SYS_setns: case SYS_mount: case SYS_pidfd_getfd:
    case SYS_perf_event_open: case SYS_modify_ldt:
        return UNKNOWN;
    case SYS_rseq: case SYS_faccessat2: case SYS_close_range: case SYS_openat2: case SYS_pidfd_open: case SYS_clock_gettime:
        return PLAIN;
    }
    return number <= SYS_statx ? PLAIN : UNKNOWN;
}

static bool opens_file(uint64_t number)
{
    return number == SYS_open || number == SYS_openat || number == SYS_openat2 || number == SYS_creat ||
           number == SYS_open_by_handle_at;
}

// How many arguments a call has, of those that are often made; 6 of the others. In a register that is none may be an
// address of the file by chance.
static int argument_count(uint64_t number)
{
    static const uint16_t none[] = {SYS_getpid, SYS_gettid, SYS_getppid, SYS_getuid, SYS_geteuid, SYS_getgid, SYS_getegid,
                                    SYS_sched_yield, SYS_rt_sigreturn, SYS_getpgrp, 0xffff};
    static const uint16_t one[] = {SYS_close, SYS_brk, SYS_pipe, SYS_dup, SYS_exit, SYS_exit_group, SYS_fsync, SYS_fdatasync,
                                   SYS_unlink, SYS_uname, SYS_sysinfo, SYS_set_tid_address, SYS_times, 0xffff};
    static const uint16_t two[] = {SYS_stat, SYS_fstat, SYS_lstat, SYS_access, SYS_dup2, SYS_pipe2, SYS_kill, SYS_flock,
                                   SYS_ftruncate, SYS_getcwd, SYS_gettimeofday, SYS_arch_prctl, SYS_clock_gettime, SYS_nanosleep,
                                   SYS_sigaltstack, SYS_fstatfs, SYS_statfs, SYS_setpgid, SYS_getrusage, SYS_set_robust_list, 0xffff};
    static const uint16_t three[] = {SYS_read, SYS_write, SYS_open, SYS_poll, SYS_lseek, SYS_ioctl, SYS_dup3, SYS_fcntl, SYS_readlink,
                                     SYS_getdents64, SYS_faccessat, SYS_getrandom, SYS_execve, SYS_sched_getaffinity, SYS_tgkill,
                                     SYS_readv, SYS_writev, 0xffff};
    static const uint16_t four[] = {SYS_rt_sigaction, SYS_rt_sigprocmask, SYS_wait4, SYS_openat, SYS_newfstatat, SYS_readlinkat,
                                    SYS_faccessat2, SYS_prlimit64, SYS_rseq, SYS_pread64, SYS_pwrite64, SYS_clock_nanosleep,
                                    SYS_fallocate, 0xffff};
    static const uint16_t *const all[] = {none, one, two, three, four};
    for (int count = 0; count < (int)(sizeof all / sizeof *all); count++)
        for (const uint16_t *at = all[count]; *at != 0xffff; at++)
            if (*at == number)
                return count;
    return 6;
}

static bool has_pointer(const struct task *task, const uint64_t *arguments, int count)
{
    for (int i = 0; i < count; i++)
        if (map_at(task->memory, arguments[i]))
            return true;
    return false;
}

// The place in the file at which a descriptor reads next.
static uint64_t position(const struct task *task, int descriptor)
{
    char path[64], line[64];
    uint64_t at = 0;
    snprintf(path, sizeof path, "/proc/%d/fdinfo/%d", task->pid, descriptor);
    FILE *file = fopen(path, "r");
    if (file && fgets(line, sizeof line, file) && sscanf(line, "pos: %lu", &at) != 1)
        at = 0;
    if (file)
        fclose(file);
    return at;
}

static void read_by_call(const struct task *task, uint64_t number, const uint64_t *arguments)
{
    if (!is_file(task, (int)arguments[0]))
        return;
    uint64_t from = number == SYS_pread64 ? arguments[3] : position(task, (int)arguments[0]);
    read_bytes(from, from + arguments[2] < from ? UINT64_MAX : from + arguments[2], true);
}

// A call between descriptors, or of one by a name: whether one of its first arguments is the file.
static bool has_file(const struct task *task, const uint64_t *arguments)
{
    return is_file(task, (int)arguments[0]) || is_file(task, (int)arguments[1]) || is_file(task, (int)arguments[2]);
}

// Whether this ioctl is one of terminals, which asks nothing of a file.
static bool is_of_terminal(uint64_t request)
{
    return (request & 0xffffff00) == 0x5400;
}

// A child that has the same memory and runs beside its parent, or the same descriptors, is not followed.
static void begin_task(struct task *task, uint64_t number, const uint64_t *arguments)
{
    uint64_t flags = number == SYS_clone ? arguments[0] : number == SYS_fork ? 0 : CLONE_VM | CLONE_VFORK;
    if (number == SYS_clone3 && read_memory(task, &flags, sizeof flags, arguments[0]) != sizeof flags)
        flags = CLONE_VM;
    task->child_shares = flags & CLONE_VM;
    if ((flags & CLONE_VM) && !(flags & CLONE_VFORK))
        read_all("it starts a thread");
    else if (flags & CLONE_FILES)
        read_all("it starts a process that shares its descriptors");
}

// Notes what a call that begins will read. Answers whether it needs open pages.
static bool begin_call(struct task *task)
{
    uint64_t arguments[6], number = task->entry.entry.nr;
    memcpy(arguments, task->entry.entry.args, sizeof arguments);
    enum meaning meaning = meaning_of(number);
    bool points = has_pointer(task, arguments, argument_count(number));
    switch (meaning) {
    case READS:
        read_by_call(task, number, arguments);
        return points;
    case WRITES:
        if (points)
            read_addresses(task, arguments[1], arguments[1] + arguments[2]);
        return points;
    case CONTROLS:
        if (!is_of_terminal(arguments[1]))
            read_all("it controls a file (ioctl)");
        return points;
    case SEEKS:
        if ((arguments[2] == SEEK_DATA || arguments[2] == SEEK_HOLE) && is_file(task, (int)arguments[0]))
            read_all("it asks for holes of the file");
        return false;
    case BEGINS_TASK:
        begin_task(task, number, arguments);
        return is_all_known();
    case MAPS:
        return false;
    case COPIES:
        if (!has_file(task, arguments) && !points)
            return false;
        break;
    case VECTORS:
        if (!is_file(task, (int)arguments[0]) && !task->memory->map_count)
            return false;
        break;
    case MOVES_MAP: case PLAIN:
        if (!points)
            return false;
        break;
    case UNKNOWN:
        break;
    }
    char why[80];
    snprintf(why, sizeof why, "the system call %lu %s", number, reasons[meaning]);
    read_all(why);
    return true;
}

// ---- the end of a call

static void watch_or_close(struct task *task)
{
    struct memory *memory = task->memory;
    if (memory->is_watched && set_watches(task))
        return;
    memory->is_watched = false;
    close_unknown(task);
}

static bool watches_are_meant;

static void has_mapped(struct task *task, const uint64_t *arguments, uint64_t start)
{
    uint64_t length = (arguments[1] + PAGE - 1) & -(uint64_t)PAGE;
    cut_maps(task->memory, start, start + length);
    if ((arguments[3] & MAP_ANONYMOUS) || !is_file(task, (int)arguments[4]))
        return;
    struct map map = {start, start + length, arguments[5], (int)arguments[2], (arguments[3] & MAP_TYPE) != MAP_PRIVATE};
    if (task->memory->map_count == 0)
        task->memory->is_watched = watches_are_meant && asked_count() <= WATCHES;
    add_map(task, &map);
    if (!is_all_known())
        watch_or_close(task);
}

// A protection by the checker itself. The whole map takes the one that lets more.
static void has_protected(struct task *task, const uint64_t *arguments)
{
    struct memory *memory = task->memory;
    bool is_touched = false;
    for (int i = 0; i < memory->map_count; i++)
        if (arguments[0] < memory->maps[i].end && memory->maps[i].start < arguments[0] + arguments[1]) {
            memory->maps[i].protection |= (int)arguments[2];
            is_touched = true;
        }
    if (is_touched && memory->is_closed)
        close_unknown(task);
}

// Random bytes are always the same: a checker that draws them is to do the same each time.
static void fix_random(struct task *task, uint64_t address, uint64_t count)
{
    uint8_t fixed[256];
    for (unsigned i = 0; i < sizeof fixed; i++)
        fixed[i] = (uint8_t)(37 * i + 11);
    for (uint64_t at = 0; at < count; at += sizeof fixed)
        write_memory(task, fixed, count - at < sizeof fixed ? count - at : sizeof fixed, address + at);
}

// Whether a descriptor is the memory of a process, of which reads are not seen.
static bool is_memory_of_process(const struct task *task, int descriptor)
{
    char path[64], name[64];
    snprintf(path, sizeof path, "/proc/%d/fd/%d", task->pid, descriptor);
    ssize_t length = readlink(path, name, sizeof name - 1);
    name[length < 0 ? 0 : length] = 0;
    return !strncmp(name, "/proc/", 6) && strstr(name, "/mem");
}

static void has_opened(struct task *task, int64_t result)
{
    if (result >= 0 && is_file(task, (int)result))
        task->sees = true;
    if (result >= 0 && is_memory_of_process(task, (int)result))
        read_all("it opens the memory of a process");
}

static void end_call(struct task *task, int64_t result)
{
    uint64_t arguments[6], number = task->entry.entry.nr;
    memcpy(arguments, task->entry.entry.args, sizeof arguments);
    bool has_failed = result < 0 && result >= -4095;
    if (has_failed)
        return;
    if (opens_file(number))
        has_opened(task, result);
    else if (number == SYS_getrandom)
        fix_random(task, arguments[0], (uint64_t)result);
    else if (is_all_known())
        return;
    else if (number == SYS_mmap)
        has_mapped(task, arguments, (uint64_t)result);
    else if (number == SYS_munmap)
        cut_maps(task->memory, arguments[0], arguments[0] + ((arguments[1] + PAGE - 1) & -(uint64_t)PAGE));
    else if (number == SYS_mprotect || number == SYS_pkey_mprotect)
        has_protected(task, arguments);
}

// ---- stops

// Has a call that begins not be made, opens all pages, and has it be made again.
static void make_again(struct task *task)
{
    struct user_regs_struct registers, again;
    int status;
    enum { CALL_LENGTH = 2 };
    get_registers(task, &registers);
    again = registers;
    registers.orig_rax = (uint64_t)-1;
    set_registers(task, &registers);
    ptrace(PTRACE_SYSCALL, task->pid, NULL, NULL);
    if (!wait_for(task, &status))
        return;
    again.rip -= CALL_LENGTH;
    again.rax = task->entry.entry.nr;
    again.orig_rax = (uint64_t)-1;
    set_registers(task, &again);
    open_all(task);
    task->is_made_again = task->is_opened = true;
}

static void at_begin(struct task *task)
{
    if (task->is_made_again) {
        task->is_made_again = false;
        return;
    }
    bool needs_open = true;
    if (task->entry.arch != AUDIT_ARCH_X86_64)
        read_all("a program of 32 bits");
    else if (!is_all_known())
        needs_open = begin_call(task);
    if (needs_open && task->memory->is_closed)
        make_again(task);
}

static void at_end(struct task *task, int64_t result)
{
    if (task->is_made_again)
        return;
    task->wants_exit = false;
    end_call(task, result);
    if (is_all_known() && task->memory->is_closed)
        open_all(task);
    else if (task->is_opened && !is_all_known())
        close_unknown(task);
    task->is_opened = false;
}

void take_call(struct task *task)
{
    struct ptrace_syscall_info info;
    if (ptrace(PTRACE_GET_SYSCALL_INFO, task->pid, sizeof info, &info) <= 0)
        return;
    if (info.op == PTRACE_SYSCALL_INFO_EXIT) {
        at_end(task, info.exit.rval);
    } else if (info.op == PTRACE_SYSCALL_INFO_ENTRY) {
        if (!task->is_made_again)
            task->entry = info;
        at_begin(task);
    }
}

// The task did not see the file before, so nothing of it is mapped.
void take_filtered_call(struct task *task)
{
    struct ptrace_syscall_info info;
    if (ptrace(PTRACE_GET_SYSCALL_INFO, task->pid, sizeof info, &info) <= 0)
        return;
    // The first fields are those of a call that begins.
    bool looks_elsewhere = looks_at_calls(task);
    task->entry = info;
    if (info.arch != AUDIT_ARCH_X86_64)
        read_all("a program of 32 bits");
    else if (opens_file(info.entry.nr) || info.entry.nr == SYS_getrandom)
        task->wants_exit = true;
    else if (info.entry.nr == SYS_recvmsg || info.entry.nr == SYS_recvmmsg)
        task->sees = true;
    else if (!looks_elsewhere && !is_all_known())
        begin_call(task);
}

bool looks_at_calls(const struct task *task)
{
    if (task->wants_exit || task->is_made_again || task->is_opened || task->memory->is_closed)
        return true;
    return !is_all_known() && (task->sees || task->memory->map_count);
}

void mean_watches(bool are_meant)
{
    watches_are_meant = are_meant;
}

// ---- the filter

bool filter_calls(void)
{
    static const uint16_t stops[] = {
        SYS_open, SYS_openat, SYS_openat2, SYS_creat, SYS_open_by_handle_at, SYS_getrandom, SYS_recvmsg, SYS_recvmmsg, SYS_clone,
        SYS_clone3, SYS_process_vm_readv, SYS_process_vm_writev, SYS_ptrace, SYS_io_uring_setup, SYS_io_setup, SYS_userfaultfd,
        SYS_shmat, SYS_bpf, SYS_unshare, SYS_setns, SYS_mount, SYS_pidfd_getfd, SYS_perf_event_open};
    enum { COUNT = sizeof stops / sizeof *stops };
    struct sock_filter code[COUNT + 6];
    int length = 0;
    code[length++] = (struct sock_filter)BPF_STMT(BPF_LD | BPF_W | BPF_ABS, offsetof(struct seccomp_data, arch));
    code[length++] = (struct sock_filter)BPF_JUMP(BPF_JMP | BPF_JEQ | BPF_K, AUDIT_ARCH_X86_64, 1, 0);
    code[length++] = (struct sock_filter)BPF_STMT(BPF_RET | BPF_K, SECCOMP_RET_TRACE);
    code[length++] = (struct sock_filter)BPF_STMT(BPF_LD | BPF_W | BPF_ABS, offsetof(struct seccomp_data, nr));
    for (int i = 0; i < COUNT; i++)
        code[length++] = (struct sock_filter)BPF_JUMP(BPF_JMP | BPF_JEQ | BPF_K, stops[i], (uint8_t)(COUNT - i), 0);
    code[length++] = (struct sock_filter)BPF_STMT(BPF_RET | BPF_K, SECCOMP_RET_ALLOW);
    code[length++] = (struct sock_filter)BPF_STMT(BPF_RET | BPF_K, SECCOMP_RET_TRACE);
    struct sock_fprog program = {(unsigned short)length, code};
    if (syscall(SYS_seccomp, SECCOMP_SET_MODE_FILTER, 0, &program) == 0)
        return true;
    // Without the right to do so a process has to give up to gain rights.
    return !prctl(PR_SET_NO_NEW_PRIVS, 1, 0, 0, 0) && syscall(SYS_seccomp, SECCOMP_SET_MODE_FILTER, 0, &program) == 0;
}

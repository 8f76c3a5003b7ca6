#define _GNU_SOURCE
#include "tasks.h"

#include <elf.h>
#include <errno.h>
#include <fcntl.h>
#include <signal.h>
#include <stddef.h>
#include <stdio.h>
#include <stdlib.h>
#include <string.h>
#include <sys/mman.h>
#include <sys/ptrace.h>
#include <sys/stat.h>
#include <sys/syscall.h>
#include <sys/wait.h>
#include <unistd.h>

#include "clock.h"
#include "fail.h"
#include "words.h"

static struct task tasks[MOST_TASKS];
static struct stat followed;

bool follow_file(const char *path)
{
    return stat(path, &followed) == 0;
}

bool is_file(const struct task *task, int descriptor)
{
    char path[64];
    struct stat it;
    if (descriptor < 0)
        return false;
    snprintf(path, sizeof path, "/proc/%d/fd/%d", task->pid, descriptor);
    return !stat(path, &it) && it.st_dev == followed.st_dev && it.st_ino == followed.st_ino;
}

// ---- tasks

struct task *find_task(pid_t pid)
{
    for (int i = 0; i < MOST_TASKS; i++)
        if (tasks[i].pid == pid)
            return &tasks[i];
    return NULL;
}

struct task *add_task(pid_t pid)
{
    struct task *task = find_task(0);
    if (!task)
        fail("the checker has more than %d processes", MOST_TASKS);
    *task = (struct task){.pid = pid};
    return task;
}

static void drop_memory(struct memory *memory)
{
    if (memory && --memory->users == 0) {
        close(memory->bytes);
        free(memory);
    }
}

void forget_task(struct task *task)
{
    drop_memory(task->memory);
    *task = (struct task){0};
}

void kill_tasks(pid_t group)
{
    kill(-group, SIGKILL);
    for (int i = 0; i < MOST_TASKS; i++)
        if (tasks[i].pid)
            kill(tasks[i].pid, SIGKILL);
    while (waitpid(-1, NULL, __WALL) > 0)
        ;
    for (int i = 0; i < MOST_TASKS; i++)
        if (tasks[i].pid)
            forget_task(&tasks[i]);
}

// ---- memories

static struct memory *new_memory(pid_t pid, const struct memory *old)
{
    char path[64];
    struct memory *memory = allocate(1, sizeof *memory);
    if (old)
        *memory = *old;
    memory->users = 1;
    snprintf(path, sizeof path, "/proc/%d/mem", pid);
    memory->bytes = open(path, O_RDWR | O_CLOEXEC);
    return memory;
}

// The vdso stays mapped, and has a `syscall` instruction.
static void find_call(struct memory *memory, uint64_t vdso)
{
    uint8_t code[2 * PAGE];
    ssize_t count = vdso ? pread(memory->bytes, code, sizeof code, (off_t)vdso) : 0;
    memory->call = 0;
    for (ssize_t i = 0; i + 1 < count && !memory->call; i++)
        if (code[i] == 0x0f && code[i + 1] == 0x05)
            memory->call = vdso + (uint64_t)i;
    if (!memory->call)
        read_all("its vdso has no system call");
}

// Finds the vdso, and fixes the random bytes that the kernel gives to a program.
static void read_vector(const struct task *task)
{
    static const uint8_t fixed[16] = {1, 2, 3, 4, 5, 6, 7, 8, 9, 10, 11, 12, 13, 14, 15, 16};
    char path[64];
    uint64_t pair[2], vdso = 0;
    snprintf(path, sizeof path, "/proc/%d/auxv", task->pid);
    int file = open(path, O_RDONLY | O_CLOEXEC);
    while (file >= 0 && read(file, pair, sizeof pair) == sizeof pair && pair[0] != AT_NULL) {
        if (pair[0] == AT_SYSINFO_EHDR)
            vdso = pair[1];
        if (pair[0] == AT_RANDOM)
            write_memory(task, fixed, sizeof fixed, pair[1]);
    }
    if (file >= 0)
        close(file);
    find_call(task->memory, vdso);
}

void give_memory(struct task *task)
{
    drop_memory(task->memory);
    task->memory = new_memory(task->pid, NULL);
    task->watch_count = 0;
    read_vector(task);
}

void give_memory_of(struct task *child, const struct task *parent, bool is_shared)
{
    drop_memory(child->memory);
    child->sees = parent->sees;
    child->memory = parent->memory;
    if (is_shared)
        child->memory->users++;
    else
        child->memory = new_memory(child->pid, parent->memory);
}

void get_registers(const struct task *task, struct user_regs_struct *registers)
{
    ptrace(PTRACE_GETREGS, task->pid, NULL, registers);
}

void set_registers(const struct task *task, const struct user_regs_struct *registers)
{
    ptrace(PTRACE_SETREGS, task->pid, NULL, registers);
}

ssize_t read_memory(const struct task *task, void *bytes, size_t count, uint64_t address)
{
    return pread(task->memory->bytes, bytes, count, (off_t)address);
}

void write_memory(const struct task *task, const void *bytes, size_t count, uint64_t address)
{
    if (pwrite(task->memory->bytes, bytes, count, (off_t)address) != (ssize_t)count)
        read_all("its memory cannot be written");
}

bool wait_for(const struct task *task, int *status)
{
    for (;;) {
        if (waitpid(task->pid, status, __WALL) == task->pid)
            return WIFSTOPPED(*status);
        if (errno != EINTR || is_late())
            return false;
    }
}

// ---- maps

struct map *map_at(struct memory *memory, uint64_t address)
{
    for (int i = 0; i < memory->map_count; i++)
        if (address >= memory->maps[i].start && address < memory->maps[i].end)
            return &memory->maps[i];
    return NULL;
}

uint64_t offset_in(const struct map *map, uint64_t address)
{
    return map->offset + (address - map->start);
}

void add_map(struct task *task, const struct map *map)
{
    struct memory *memory = task->memory;
    if (memory->map_count == MOST_MAPS) {
        read_all("it has too many mappings of the file");
        return;
    }
    memory->maps[memory->map_count++] = *map;
    if (!map->is_shared)
        has_private_map();
}

void cut_maps(struct memory *memory, uint64_t start, uint64_t end)
{
    struct map left[2 * MOST_MAPS];
    int count = 0;
    for (int i = 0; i < memory->map_count; i++) {
        struct map low = memory->maps[i], high = low;
        if (low.end <= start || low.start >= end) {
            left[count++] = low;
            continue;
        }
        low.end = start;
        high.offset = low.offset + (end - low.start);
        high.start = end;
        if (low.start < low.end)
            left[count++] = low;
        if (high.start < high.end)
            left[count++] = high;
    }
    if (count > MOST_MAPS) {
        read_all("it has too many mappings of the file");
        count = MOST_MAPS;
    }
    memcpy(memory->maps, left, sizeof *left * (size_t)count);
    memory->map_count = count;
}

// ---- the access of pages

// Has a task make a system call. It is stopped, and not at the beginning of one.
static long make_call(struct task *task, long number, uint64_t first, uint64_t second, uint64_t third)
{
    struct user_regs_struct before, registers;
    int status;
    get_registers(task, &before);
    registers = before;
    registers.rip = task->memory->call;
    registers.rax = (uint64_t)number;
    registers.rdi = first;
    registers.rsi = second;
    registers.rdx = third;
    // No call is to be restarted by the kernel, neither this one nor one that it interrupts.
    registers.orig_rax = before.orig_rax = (uint64_t)-1;
    set_registers(task, &registers);
    do {
        ptrace(PTRACE_SINGLESTEP, task->pid, NULL, NULL);
        if (!wait_for(task, &status))
            return -1;
        if (WSTOPSIG(status) != SIGTRAP)
            task->late_signal = WSTOPSIG(status);
    } while (WSTOPSIG(status) != SIGTRAP);
    get_registers(task, &registers);
    set_registers(task, &before);
    return (long)registers.rax;
}

static void protect(struct task *task, uint64_t start, uint64_t end, int protection)
{
    if (make_call(task, SYS_mprotect, start, end - start, (uint64_t)protection))
        read_all("the access of its pages cannot be changed");
}

void open_page(struct task *task, const struct map *map, uint64_t address)
{
    uint64_t page = address & -(uint64_t)PAGE;
    protect(task, page, page + PAGE, map->protection);
}

void close_page(struct task *task, uint64_t address)
{
    uint64_t page = address & -(uint64_t)PAGE;
    task->memory->is_closed = true;
    protect(task, page, page + PAGE, PROT_NONE);
}

// What is to become of a page of a map: it stays as it is if nothing of it is asked.
enum access { AS_IT_IS, OPEN, CLOSED };

static enum access access_of(const struct map *map, uint64_t address, bool opens)
{
    uint64_t offset = offset_in(map, address);
    if (!is_page_asked(offset))
        return AS_IT_IS;
    return opens || is_page_known(offset, map->is_shared) ? OPEN : CLOSED;
}

static void set_pages(struct task *task, bool opens)
{
    for (int i = 0; i < task->memory->map_count; i++) {
        const struct map *map = &task->memory->maps[i];
        for (uint64_t at = map->start, next; at < map->end; at = next) {
            enum access access = access_of(map, at, opens);
            for (next = at + PAGE; next < map->end && access_of(map, next, opens) == access; next += PAGE)
                ;
            if (access != AS_IT_IS)
                protect(task, at, next, access == OPEN ? map->protection : PROT_NONE);
        }
    }
}

void open_all(struct task *task)
{
    set_pages(task, true);
    task->memory->is_closed = false;
}

void close_unknown(struct task *task)
{
    task->memory->is_closed = true;
    set_pages(task, false);
}

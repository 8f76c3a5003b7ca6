#include "accesses.h"

#include <signal.h>
#include <stddef.h>
#include <sys/ptrace.h>
#include <sys/wait.h>

#include "fail.h"
#include "operands.h"
#include "words.h"

// An instruction touches so many pages at most: a gather has 16 elements, each over two pages.
enum { MOST_PAGES = 40 };

static unsigned most_traps = 4000;

void set_most_traps(unsigned count)
{
    most_traps = count;
}

void read_addresses(const struct task *task, uint64_t start, uint64_t end)
{
    for (int i = 0; i < task->memory->map_count; i++) {
        const struct map *map = &task->memory->maps[i];
        uint64_t from = start > map->start ? start : map->start, to = end < map->end ? end : map->end;
        if (from < to)
            read_bytes(offset_in(map, from), offset_in(map, to), map->is_shared);
    }
}

// What an instruction has stored to a shared map, if all of it is there.
static void overwrite_addresses(const struct task *task, const struct span *store)
{
    const struct map *map = store->start < store->end ? map_at(task->memory, store->start) : NULL;
    if (map && map->is_shared && store->end <= map->end)
        overwrite_bytes(offset_in(map, store->start), offset_in(map, store->end));
}

// The instruction that is run alone, and the pages that were opened for it.
struct alone {
    struct access access;
    uint64_t pages[MOST_PAGES];
    int page_count;
};

static bool was_opened(const struct alone *alone, uint64_t address)
{
    for (int i = 0; i < alone->page_count; i++)
        if (alone->pages[i] == (address & -(uint64_t)PAGE))
            return true;
    return false;
}

// Opens the page of an address, at which the instruction has trapped. Where it was not meant to touch it, the operands are
// not all, and all words of the page are taken as read.
static void open_for(struct task *task, struct alone *alone, uint64_t address)
{
    const struct map *map = map_at(task->memory, address);
    uint64_t offset = offset_in(map, address);
    if (!is_meant(&alone->access, address))
        alone->access.is_known = false;
    if (!alone->access.is_known || count_trap(offset) > most_traps)
        read_page(offset);
    if (alone->page_count == MOST_PAGES)
        fail("an instruction touches more than %d pages", MOST_PAGES);
    alone->pages[alone->page_count++] = address & -(uint64_t)PAGE;
    open_page(task, map, address);
}

static bool is_closed_access(const struct task *task, const siginfo_t *info)
{
    return info->si_signo == SIGSEGV && info->si_code == SEGV_ACCERR && map_at(task->memory, (uint64_t)info->si_addr);
}

// Runs one instruction, and opens each page that it touches. Answers whether it has been run.
static bool step(struct task *task, struct alone *alone)
{
    int status;
    siginfo_t info;
    for (;;) {
        ptrace(PTRACE_SINGLESTEP, task->pid, NULL, NULL);
        if (!wait_for(task, &status))
            return false;
        if (WSTOPSIG(status) == SIGTRAP)
            return true;
        if (ptrace(PTRACE_GETSIGINFO, task->pid, NULL, &info))
            continue;
        if (is_closed_access(task, &info) && !was_opened(alone, (uint64_t)info.si_addr)) {
            open_for(task, alone, (uint64_t)info.si_addr);
            continue;
        }
        task->late_signal = WSTOPSIG(status);
        // A fault of its own: the instruction was not run. A signal from elsewhere came before it.
        if (info.si_code > 0)
            return false;
    }
}

static void close_again(struct task *task, const struct alone *alone)
{
    for (int i = 0; i < alone->page_count; i++) {
        const struct map *map = map_at(task->memory, alone->pages[i]);
        if (map && !is_page_known(offset_in(map, alone->pages[i]), map->is_shared))
            close_page(task, alone->pages[i]);
    }
}

static void run_alone(struct task *task, uint64_t address)
{
    struct alone alone = {.page_count = 0};
    struct user_regs_struct registers;
    uint8_t bytes[LONGEST_INSTRUCTION];
    get_registers(task, &registers);
    ssize_t count = read_memory(task, bytes, sizeof bytes, registers.rip);
    find_access(bytes, count < 0 ? 0 : (size_t)count, &registers, &alone.access);
    if (alone.access.is_known)
        for (int i = 0; i < alone.access.read_count; i++)
            read_addresses(task, alone.access.reads[i].start, alone.access.reads[i].end);
    open_for(task, &alone, address);
    bool has_run = step(task, &alone);
    if (!find_task(task->pid))
        return;
    if (has_run && alone.access.is_known)
        overwrite_addresses(task, &alone.access.store);
    close_again(task, &alone);
}

bool take_fault(struct task *task)
{
    siginfo_t info;
    if (ptrace(PTRACE_GETSIGINFO, task->pid, NULL, &info) || !is_closed_access(task, &info))
        return false;
    uint64_t address = (uint64_t)info.si_addr;
    const struct map *map = map_at(task->memory, address);
    uint64_t offset = offset_in(map, address);
    if (!is_page_asked(offset) || !task->memory->is_closed)
        return false;
    if (is_all_known())
        open_all(task);
    else if (is_page_known(offset, map->is_shared))
        // It was learned elsewhere: by another map, or by another process.
        open_page(task, map, address);
    else
        run_alone(task, address);
    return true;
}

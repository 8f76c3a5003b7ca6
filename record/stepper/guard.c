#include "guard.h"

#include <stdlib.h>
#include <string.h>
#include <sys/mman.h>
#include <sys/syscall.h>

#include "code.h"
#include "inject.h"
#include "program.h"
#include "region.h"
#include "sweep.h"

struct range {
    uint64_t start, end;
    int open, closed; // protections
};

static struct guard {
    struct range *ranges;
    size_t count;
    bool is_closed;
} guards[GUARDED];
static uint64_t times_closed;
static bool is_impossible; // a page has both the region and code

static void add_range(struct guard *guard, uint64_t start, uint64_t end, int open, int closed)
{
    struct range *last = guard->count > 0 ? &guard->ranges[guard->count - 1] : NULL;
    start &= -(uint64_t)PAGE;
    end = (end + PAGE - 1) & -(uint64_t)PAGE;
    if (last && start <= last->end && last->open == open) {
        last->end = end > last->end ? end : last->end;
        return;
    }
    guard->ranges = realloc(guard->ranges, (guard->count + 1) * sizeof *guard->ranges);
    if (!guard->ranges)
        stop(FAILED, "out of memory");
    guard->ranges[guard->count++] = (struct range){start, end, open, closed};
}

static void find_region_pages(void)
{
    struct guard *guard = &guards[REGION];
    struct mapping mapping;
    FILE *mappings = open_mappings(program);
    while (next_mapping(mappings, &mapping)) {
        uint64_t start = mapping.start, offset, length;
        while (next_part(&start, mapping.end, &offset, &length)) {
            is_impossible |= mapping.executable;
            if (mapping.protection & PROT_WRITE)
                add_range(guard, start - length, start, mapping.protection, mapping.protection & ~PROT_WRITE);
        }
    }
    fclose(mappings);
}

static void find_code_pages(void)
{
    uint64_t start = 0, end;
    int protection;
    for (; next_stepped_code(&start, &end, &protection); start = end)
        add_range(&guards[CODE], start, end, protection, protection & ~PROT_EXEC);
}

void find_guarded(void)
{
    guards[REGION].count = guards[CODE].count = 0;
    is_impossible = false;
    find_region_pages();
    find_code_pages();
}

static bool has_range(const struct guard *guard, uint64_t address)
{
    for (size_t i = 0; i < guard->count; i++)
        if (address >= guard->ranges[i].start && address < guard->ranges[i].end)
            return true;
    return false;
}

bool is_closed_at(enum guarded what, uint64_t address)
{
    return guards[what].is_closed && has_range(&guards[what], address);
}

bool is_open(enum guarded what)
{
    return !guards[what].is_closed;
}

uint64_t closings(void)
{
    return times_closed;
}

// Answers whether each page could be protected so.
static bool protect(const struct thread *thread, struct guard *guard, bool closes)
{
    bool good = true;
    guard->is_closed = closes;
    for (size_t i = 0; i < guard->count; i++) {
        const struct range *range = &guard->ranges[i];
        good &= call_in_program(thread, SYS_mprotect, range->start, range->end - range->start,
                                (uint64_t)(closes ? range->closed : range->open)) == 0;
    }
    return good;
}

void open_pages(const struct thread *thread, enum guarded what)
{
    if (guards[what].is_closed && !protect(thread, &guards[what], false))
        stop(FAILED, "the program's memory cannot be protected as it was");
}

bool close_pages(const struct thread *thread)
{
    if (is_impossible)
        return false;
    times_closed += !guards[REGION].is_closed;
    for (int what = 0; what < GUARDED; what++)
        if (!guards[what].is_closed && !protect(thread, &guards[what], true)) {
            open_pages(thread, REGION);
            open_pages(thread, CODE);
            return false;
        }
    return true;
}

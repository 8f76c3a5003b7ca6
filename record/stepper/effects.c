#include "effects.h"

#include <elf.h>
#include <errno.h>
#include <stdarg.h>
#include <stdio.h>
#include <stdlib.h>
#include <string.h>
#include <sys/ptrace.h>
#include <sys/uio.h>

#include "log.h"
#include "program.h"
#include "region.h"

enum { DIRECTION_FLAG = 1 << 10, ZERO_FLAG = 1 << 6, WIDEST_STORE = 64 };

// ---- what may have stored unseen

// How often something may have stored to the region unseen since it was compared. A small region is compared at once; a
// large one before the next line of the log, and before the next instruction that may change it.
enum { SMALL = 1 << 20 };
static uint64_t doubts;
static struct thread doubted; // as it was at the last of them
static char doubtful[64];     // what this was

void doubt(const struct thread *thread, const char *format, ...)
{
    va_list arguments;
    va_start(arguments, format);
    vsnprintf(doubtful, sizeof doubtful, format, arguments);
    va_end(arguments);
    doubts++;
    doubted = *thread;
    if (region_size() <= SMALL)
        settle_doubts();
}

void settle_doubts(void)
{
    uint64_t offset, before = doubts - 1;
    if (doubts == 0)
        return;
    doubts = 0;
    if (!differs_from_shadow(&offset))
        return;
    if (before == 0)
        refuse(&doubted, "%s changed the byte at 0x%lx of the region", doubtful, offset);
    refuse(&doubted, "%s, or one of the %lu doubtful ones before it, changed the byte at 0x%lx of the region",
           doubtful, before, offset);
}

void compare(const struct thread *thread)
{
    uint64_t offset;
    settle_doubts();
    if (differs_from_shadow(&offset))
        refuse(thread, "at the end the byte at 0x%lx of the region is not what was recorded", offset);
}

void event(struct thread *thread, const char *word, const char *format, ...)
{
    char rest[3 * WIDEST_STORE + 64];
    va_list arguments;
    va_start(arguments, format);
    vsnprintf(rest, sizeof rest, format, arguments);
    va_end(arguments);
    settle_doubts();
    log_event(thread, word, *rest ? "%s" : "", rest);
}

// ---- stores

// Bytes that were stored, as memory has them.
static void record_bytes(struct thread *thread, const char *word, uint64_t address, unsigned size)
{
    uint8_t bytes[WIDEST_STORE];
    char text[2 * WIDEST_STORE + 1];
    uint64_t first, last;
    if (!touches_region(address, size))
        return;
    if (size > WIDEST_STORE)
        refuse(thread, "a store of %u bytes", size);
    if (!is_in_region(address, &first) || !is_in_region(address + size - 1, &last) || last != first + size - 1)
        refuse(thread, "a store over the edge of the region");
    if (last >= end_of_file(first))
        refuse(thread, "a store behind the end of the file: the kernel drops it");
    if (!read_memory(address, bytes, size))
        refuse(thread, "what was stored cannot be read");
    for (unsigned i = 0; i < size; i++)
        sprintf(text + 2 * i, "%02x", bytes[i]);
    store_in_shadow(first, bytes, size);
    event(thread, word, "0x%lx %s%s", first, text, thread->instruction.is_repeated ? " rep" : "");
    thread->has_fenced = false;
    thread->has_stored = true;
}

// Of a store with a mask each run of elements that it stores.
static void record_masked(struct thread *thread, const char *word, uint64_t address)
{
    static uint8_t xsave[1 << 14];
    const struct mask *mask = &thread->instruction.mask;
    struct iovec all = {xsave, sizeof xsave};
    if (ptrace(PTRACE_GETREGSET, thread->id, NT_X86_XSTATE, &all))
        stop(FAILED, "the vector registers cannot be read: %s", strerror(errno));
    uint64_t bits = mask_bits(mask, xsave);
    unsigned count = thread->instruction.target.size / mask->element;
    for (unsigned first = 0, next; first < count; first = next) {
        for (next = first; next < count && (bits >> next & 1) == (bits >> first & 1); next++)
            ;
        if (bits >> first & 1)
            record_bytes(thread, word, address + first * mask->element, (next - first) * mask->element);
    }
}

// A locked operation. Elsewhere, and if it stores nothing, it still orders.
static void record_locked(struct thread *thread, uint64_t address)
{
    const struct instruction *instruction = &thread->instruction;
    unsigned size = instruction->target.size;
    bool is_here = touches_region(address, size);
    // cmpxchg16b, whose operand is aligned, or the processor refuses it.
    bool is_of_two_words = size == 2 * WORD;
    if (is_here && !is_of_two_words && address / WORD != (address + size - 1) / WORD)
        refuse(thread, "a locked operation over two words");
    if (is_here && !(instruction->is_compare && !(registers_of(thread).eflags & ZERO_FLAG)))
        record_bytes(thread, "locked", address, size);
    else
        event(thread, "locked", "");
    thread->has_fenced = false;
}

// After a fence or a clflush, the first store that another thread may read tells it that this is done.
static void record_elsewhere(struct thread *thread, uint64_t address)
{
    if (!thread->has_fenced || !has_several_threads() || is_on_stack(thread, address))
        return;
    event(thread, "elsewhere", "");
    thread->has_fenced = false;
}

// How many repetitions of a string instruction are still to be done.
static uint64_t repetitions(const struct thread *thread, const struct user_regs_struct *registers)
{
    return thread->instruction.target.narrow ? (uint32_t)registers->rcx : registers->rcx;
}

// What a repeated string instruction has stored, word by word, in the direction in which it went.
static void record_repeated(struct thread *thread, uint64_t address)
{
    struct user_regs_struct after = registers_of(thread);
    unsigned size = thread->instruction.target.size;
    uint64_t count = repetitions(thread, &thread->registers) - repetitions(thread, &after);
    bool goes_down = thread->registers.eflags & DIRECTION_FLAG;
    uint64_t start = goes_down ? address - (count - 1) * size : address, end = start + count * size;
    uint64_t first = start / WORD, last = (end - 1) / WORD, offset, length;
    if (count == 0)
        return;
    if (!touches_region(start, end - start))
        record_elsewhere(thread, address);
    else
        for (uint64_t i = 0; i <= last - first; i++) {
            uint64_t word = (goes_down ? last - i : first + i) * WORD;
            uint64_t from = word > start ? word : start, to = word + WORD < end ? word + WORD : end;
            while (next_part(&from, to, &offset, &length))
                record_bytes(thread, "store", from - length, (unsigned)length);
        }
}

static void record_store(struct thread *thread)
{
    const struct instruction *instruction = &thread->instruction;
    const char *word = instruction->is_nontemporal ? "nontemporal" : "store";
    uint64_t address = target_address(instruction, &thread->registers);
    if (instruction->is_repeated)
        record_repeated(thread, address);
    else if (instruction->is_locked)
        record_locked(thread, address);
    else if (!touches_region(address, instruction->target.size)) {
        if (!instruction->is_exact)
            doubt(thread, "this unknown instruction");
        record_elsewhere(thread, address);
    } else if (!instruction->is_exact)
        refuse(thread, "which bytes it stores is not known here");
    else if (instruction->mask.element)
        record_masked(thread, word, address);
    else
        record_bytes(thread, word, address, instruction->target.size);
}

// ---- an instruction

static void record_flush(struct thread *thread)
{
    uint64_t offset, address = target_address(&thread->instruction, &thread->registers);
    if (!is_in_region(address & -(uint64_t)LINE, &offset))
        return;
    event(thread, "flush", "%s 0x%lx", thread->instruction.name, offset);
    // A later store waits for clflush, as for a fence.
    if (!strcmp(thread->instruction.name, "clflush"))
        thread->has_fenced = true;
}

// pushf in a single step pushes the trap flag, which the program has not set.
static void clear_trap_flag(const struct thread *thread)
{
    uint16_t flags;
    uint64_t place = registers_of(thread).rsp;
    if (!read_memory(place, &flags, sizeof flags))
        return;
    flags &= (uint16_t)~TRAP_FLAG;
    write_memory(place, &flags, sizeof flags);
}

void prepare_instruction(struct thread *thread)
{
    const struct instruction *instruction = &thread->instruction;
    if (instruction->kind == SYSTEM_CALL)
        prepare_system_call(thread);
    if (doubts > 0 && (instruction->kind == SYSTEM_CALL ||
                       touches_region(target_address(instruction, &thread->registers), instruction->target.size)))
        settle_doubts();
}

void record_instruction(struct thread *thread)
{
    if (touches_region(thread->registers.rsp - 8, 8))
        refuse(thread, "the stack is in the region");
    switch (thread->instruction.kind) {
    case FENCE:
        event(thread, "fence", "%s", thread->instruction.name);
        thread->has_fenced = true;
        break;
    case FLUSH:
        record_flush(thread);
        break;
    case SYSTEM_CALL:
        record_system_call(thread);
        break;
    case PUSH_FLAGS:
        clear_trap_flag(thread);
        break;
    case UNKNOWN:
        doubt(thread, "this unknown instruction");
        break;
    case OTHER:
        if (thread->instruction.target.size > 0)
            record_store(thread);
    }
}

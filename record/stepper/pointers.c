#include "pointers.h"

#include <stdlib.h>
#include <string.h>
#include <sys/mman.h>
#include <sys/syscall.h>

#include "log.h"
#include "program.h"
#include "region.h"

enum { MOST_BYTES = 1 << 20, MOST_POINTERS = 256 };

static struct pointer {
    uint64_t address, offset;
} noted[MOST_POINTERS];
static size_t noted_count;

static void note_pointer(uint64_t address, uint64_t offset)
{
    for (size_t i = 0; i < noted_count; i++)
        if (noted[i].address == address && noted[i].offset == offset)
            return;
    if (noted_count == MOST_POINTERS)
        return;
    noted[noted_count++] = (struct pointer){address, offset};
    log_pointer(address, offset);
}

static void look_through(uint64_t start, uint64_t end)
{
    uint64_t offset, count = end - start < MOST_BYTES ? end - start : MOST_BYTES;
    uint64_t *words = malloc(count);
    if (!words)
        stop(FAILED, "out of memory");
    count = read_memory(start, words, count) ? count / sizeof *words : 0;
    for (uint64_t i = 0; i < count; i++)
        if (is_in_region(words[i], &offset))
            note_pointer(start + i * sizeof *words, offset);
    free(words);
}

// What is mapped writable of the program's own file, and what lies directly behind it: variables that are 0 at first.
void note_pointers(void)
{
    struct mapping mapping;
    uint64_t behind = 0;
    char own[PATH_MAX];
    if (!region_is_file())
        return;
    strcpy(own, program_path());
    FILE *mappings = open_mappings(program);
    while (next_mapping(mappings, &mapping)) {
        bool is_own = !mapping.shared && !strcmp(mapping.path, own);
        bool is_behind = mapping.start == behind && !*mapping.path;
        behind = is_own ? mapping.end : 0;
        if ((is_own || is_behind) && mapping.protection & PROT_WRITE)
            look_through(mapping.start, mapping.end);
    }
    fclose(mappings);
}

void note_pointers_before(const struct thread *thread)
{
    const struct user_regs_struct *before = &thread->registers;
    if (thread->instruction.kind == SYSTEM_CALL && before->rax == SYS_munmap &&
        touches_region(before->rdi, before->rsi))
        note_pointers();
}

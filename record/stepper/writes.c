#define _GNU_SOURCE
#include "writes.h"

#include <fcntl.h>
#include <stdio.h>
#include <string.h>
#include <sys/syscall.h>

#include "effects.h"
#include "log.h"
#include "program.h"
#include "region.h"

bool is_write(long number)
{
    return number == SYS_write || number == SYS_pwrite64 || number == SYS_writev || number == SYS_pwritev ||
           number == SYS_pwritev2;
}

// Whether the call is given the place in the file at which it writes.
static bool has_place(const struct user_regs_struct *before)
{
    if (before->rax == SYS_pwritev2)
        return before->r10 != UINT64_MAX;
    return before->rax == SYS_pwrite64 || before->rax == SYS_pwritev;
}

// The first byte of the file that the call, which is done, has written. With O_APPEND it wrote at the end, whatever place it was given.
static uint64_t first_written(const struct user_regs_struct *before, const struct descriptor *state, uint64_t file,
                              uint64_t count)
{
    if (!has_place(before))
        return file + state->position - count;
    return state->flags & O_APPEND ? end_of_file(file) - count : file + before->r10;
}

// The kernel copies in ascending order. Each line of the log has bytes of one cache line, as the region has them now.
static void record_copied(struct thread *thread, const char *word, uint64_t start, uint64_t count)
{
    uint8_t bytes[LINE];
    char text[2 * LINE + 1];
    uint64_t end = start + count, length;
    for (uint64_t offset = start; offset < end; offset += length) {
        length = LINE - offset % LINE < end - offset ? LINE - offset % LINE : end - offset;
        if (!read_region(offset, bytes, length))
            refuse(thread, "what was written cannot be read");
        for (uint64_t i = 0; i < length; i++)
            sprintf(text + 2 * i, "%02x", bytes[i]);
        store_in_shadow(offset, bytes, length);
        event(thread, word, "0x%lx %s%s", offset, text, offset != start && !strcmp(word, "write") ? " more" : "");
    }
}

void record_write(struct thread *thread, uint64_t count)
{
    struct descriptor state;
    uint64_t file;
    if (!is_descriptor_of_region((int)thread->registers.rdi, &file))
        return;
    if (!state_of_descriptor((int)thread->registers.rdi, &state))
        stop(FAILED, "a descriptor of the program cannot be looked at");
    uint64_t start = first_written(&thread->registers, &state, file, count);
    record_copied(thread, "write", start, count);
    // With O_SYNC or O_DSYNC the call ends when this is durable.
    if (state.flags & O_DSYNC)
        event(thread, "msync", "0x%lx 0x%lx", start, count);
}

bool is_read(long number)
{
    return number == SYS_read || number == SYS_pread64 || number == SYS_recvfrom;
}

void record_read(struct thread *thread, uint64_t count)
{
    uint64_t start = thread->registers.rsi, end = start + count, offset, length;
    while (next_part(&start, end, &offset, &length)) {
        if (offset + length > end_of_file(offset))
            refuse(thread, "a store behind the end of the file: the kernel drops it");
        record_copied(thread, "store", offset, length);
    }
}

bool opens(long number)
{
    return number == SYS_open || number == SYS_openat || number == SYS_openat2 || number == SYS_creat;
}

// Whether a path is that of a file of the region.
static bool is_recorded(const char *path)
{
    for (unsigned i = 0; i < file_count(); i++)
        if (!strcmp(path, name_of_file(i)))
            return true;
    return false;
}

void record_opened(struct thread *thread, int descriptor)
{
    struct descriptor state;
    const char *path = path_of_descriptor(descriptor);
    size_t length = strlen(region_name());
    if (region_is_file() && !strncmp(path, region_name(), length) && !is_recorded(path) &&
        state_of_descriptor(descriptor, &state) && (state.flags & O_ACCMODE) != O_RDONLY)
        event(thread, "beside", "%s", path + length);
}

void record_sizes(struct thread *thread)
{
    uint64_t size;
    for (unsigned i = 0; i < file_count(); i++)
        if (follow_size(i, &size))
            event(thread, "size", i == 0 ? "0x%lx" : "0x%lx 0x%lx", size, i * FILE_ROOM);
}

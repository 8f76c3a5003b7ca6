// What the programs share: a file that is mapped, flushes and fences.
#ifndef POOL_H
#define POOL_H

#include <fcntl.h>
#include <stdbool.h>
#include <stdint.h>
#include <stdio.h>
#include <stdlib.h>
#include <string.h>
#include <sys/mman.h>
#include <unistd.h>

#include "../px86-mark.h"

enum { LINE = 64 };

__attribute__((noreturn)) static inline void give_up(const char *what)
{
    perror(what);
    exit(3);
}

// Maps the first bytes of a file. A file that is made, or is too short, is filled with zeros.
static inline void *map_pool(const char *path, size_t size)
{
    int file = open(path, O_RDWR | O_CREAT, 0666);
    if (file < 0 || ftruncate(file, (off_t)size))
        give_up(path);
    void *pool = mmap(NULL, size, PROT_READ | PROT_WRITE, MAP_SHARED, file, 0);
    if (pool == MAP_FAILED)
        give_up(path);
    close(file);
    return pool;
}

// Each is a barrier for the compiler too, so the order in the source is that of the instructions.
static inline void flush(const volatile void *start, size_t size)
{
    uintptr_t end = (uintptr_t)start + size;
    for (uintptr_t line = (uintptr_t)start & -(uintptr_t)LINE; line < end; line += LINE)
        __asm__ volatile("clwb (%0)" : : "r"(line) : "memory");
}

static inline void fence(void)
{
    __asm__ volatile("sfence" : : : "memory");
}

// The greatest number that was acknowledged before the crash, which a checker is told.
static inline uint64_t acknowledged(void)
{
    const char *number = getenv("PX86_ACK");
    return number ? strtoull(number, NULL, 10) : 0;
}

// Whether the command line is NAME COMMAND FILE ..
static inline bool is_command(int count, char **words, const char *command)
{
    return count > 2 && !strcmp(words[1], command);
}

#endif

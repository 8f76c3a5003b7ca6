// The ELF files whose code a program has mapped.
#ifndef PX86_OBJECTS_H
#define PX86_OBJECTS_H

#include <stdbool.h>
#include <stddef.h>
#include <stdint.h>

#include "program.h"

struct object {
    const uint8_t *bytes;
    size_t size;
    uint64_t bias; // what is added to an address of the file
};

// Opens the file of a mapping of code, or the kernel's own (the vdso). False if it is no ELF file of 64 bits, or
// another file has its name by now.
bool open_object(const struct mapping *mapping, struct object *object);
void close_object(struct object *object);
// So many bytes at an address of the file, or NULL.
const uint8_t *bytes_at(const struct object *object, uint64_t address, uint64_t size);
// The segment of this kind: its address and size.
bool find_segment(const struct object *object, uint32_t kind, uint64_t *address, uint64_t *size);
// Calls `use` for each section of code.
void each_section(const struct object *object, void (*use)(void *context, uint64_t start, uint64_t end), void *context);
// Calls `use` for each function that has a size.
void each_sized_function(const struct object *object, void (*use)(void *context, uint64_t start, uint64_t end),
                         void *context);
// Calls `use` for each address of the file that its tables of relocations and of functions without a size have, and
// where it begins.
void each_pointer(const struct object *object, void (*use)(void *context, uint64_t address), void *context);
// How many bytes the file has at an address and behind it, in one segment.
uint64_t bytes_from(const struct object *object, uint64_t address);
// Calls `use` for each function of this name (but for those of which the program chooses one when it begins).
void each_function(const struct object *object, const char *name, void (*use)(void *context, uint64_t address),
                   void *context);

#endif

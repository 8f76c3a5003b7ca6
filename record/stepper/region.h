// The region: the bytes of files that the program maps, or of a symbol of the program. An offset in it counts from the beginning of
// the first file; those of the next files begin at FILE_ROOM, 2 * FILE_ROOM ..
#ifndef PX86_REGION_H
#define PX86_REGION_H

#include <stdbool.h>
#include <stdint.h>

enum { LINE = 64, WORD = 8, MOST_FILES = 8 };
#define FILE_ROOM (UINT64_C(1) << 44)

// Which region, before the program runs: one file, and then perhaps others. A file need not be there yet; its folder must be.
void choose_file(const char *path);
// The program must have begun.
void choose_symbol(const char *name);
unsigned file_count(void);
const char *name_of_file(unsigned number);
// That of the first file.
const char *region_name(void);
// Of all files.
uint64_t region_size(void);
// Where the file ends that has this offset.
uint64_t end_of_file(uint64_t offset);
bool region_is_file(void);
// Whether a descriptor of the program names one of the files, as they are there now.
bool is_descriptor_of_file(int descriptor);
// Whether the program has one of them open.
bool is_file_open(void);

// Looks for the region in the program's memory. Answers whether it is there, and has bytes.
bool find_region(void);
// Of the region as it was found last. Whether an address is in it, and how many bytes behind its start.
bool is_in_region(uint64_t address, uint64_t *offset);
// Whether it has one of these bytes.
bool touches_region(uint64_t address, uint64_t size);
// The next part of the addresses from *start to `end` that is in the region: its start, its offset and its length.
bool next_part(uint64_t *start, uint64_t end, uint64_t *offset, uint64_t *length);
// Whether it names a file of the region, and the offset at which that begins.
bool is_descriptor_of_region(int descriptor, uint64_t *offset);
// Whether it names a file that has got the region's name since the recording began.
bool is_descriptor_of_successor(int descriptor);

// The shadow is what the region has by all that was recorded. It begins as the region is.
void read_shadow(void);
void store_in_shadow(uint64_t offset, const void *bytes, uint64_t size);
// Whether the file of this number has another size than the shadow. Then the shadow has that: what is new is 0.
bool follow_size(unsigned number, uint64_t *size);
// Reads bytes of the region as they are.
bool read_region(uint64_t offset, void *to, uint64_t size);
// Whether the region has other bytes than the shadow, and the first place of these.
bool differs_from_shadow(uint64_t *offset);
// Writes the shadow of the file of this number to the file PATH.
void write_shadow(unsigned number, const char *path);

#endif

// The words of the file that are asked of, and what a checker has done to each: it has read it before it had overwritten
// it, or overwritten all of it, or neither. What is read first is written to standard output at once.
#ifndef PX86_WORDS_H
#define PX86_WORDS_H

#include <stdbool.h>
#include <stddef.h>
#include <stdint.h>

enum { WORD = 8, PAGE = 4096, PAGE_WORDS = PAGE / WORD };

// Asks of the words at these offsets of the file, which ascend.
void ask_words(const uint64_t *offsets, size_t count);
size_t asked_count(void);
uint64_t asked_word(size_t number);
// A new run begins: nothing is read, and nothing overwritten.
void begin_words(void);

// Bytes of the file are read, FROM up to TO. Of a shared map (or by a system call) what was overwritten does not count. A
// private map may have a copy from before it was overwritten, so there all counts.
void read_bytes(uint64_t from, uint64_t to, bool is_shared);
// Bytes of the file have been overwritten by a store to a shared map.
void overwrite_bytes(uint64_t from, uint64_t to);
// All asked words of the page of this offset are read.
void read_page(uint64_t offset);
// All asked words are read: the checker does what is not followed.
void read_all(const char *why);
void read_word(uint64_t word);
bool is_read(uint64_t word);

// A private map of the file was made: it may keep copies of what is overwritten later.
void has_private_map(void);
// Whether nothing more can be learned of the page of this offset, in a map of this kind; of all pages.
bool is_page_known(uint64_t offset, bool is_shared);
bool is_all_known(void);
// Whether the page of this offset has words that are asked.
bool is_page_asked(uint64_t offset);
// The offset behind the last page with words that are asked.
uint64_t asked_end(void);
// Counts an access to the page of this offset that had to be looked at. Answers how many there were.
unsigned count_trap(uint64_t offset);
uint64_t all_traps(void);

#endif

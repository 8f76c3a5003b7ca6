#include "words.h"

#include <stdio.h>
#include <stdlib.h>
#include <string.h>

#include "fail.h"

struct page {
    uint8_t asked[PAGE_WORDS], read[PAGE_WORDS];
    uint8_t overwritten[PAGE_WORDS]; // of each word a bit for each byte
    unsigned unread;                 // asked words that are not read
    unsigned unsettled;              // those of them that are not overwritten either
    unsigned traps;
};

enum { ALL_BYTES = 0xff };

static struct {
    uint64_t *offsets;
    size_t count;
    struct page **pages; // by their number in the file; no page where nothing is asked
    size_t page_count;
    size_t unread, unsettled;
    bool all_read, has_private;
    uint64_t traps;
} words;

static struct page *page_of(uint64_t offset)
{
    return offset / PAGE < words.page_count ? words.pages[offset / PAGE] : NULL;
}

void ask_words(const uint64_t *offsets, size_t count)
{
    for (size_t i = 0; i < words.page_count; i++)
        free(words.pages[i]);
    free(words.pages);
    free(words.offsets);
    words.count = count;
    words.offsets = allocate(count + 1, sizeof *words.offsets);
    if (count)
        memcpy(words.offsets, offsets, count * sizeof *offsets);
    words.page_count = count ? offsets[count - 1] / PAGE + 1 : 0;
    words.pages = allocate(words.page_count + 1, sizeof *words.pages);
    for (size_t i = 0; i < count; i++) {
        struct page **page = &words.pages[offsets[i] / PAGE];
        if (!*page)
            *page = allocate(1, sizeof **page);
        (*page)->asked[offsets[i] % PAGE / WORD] = 1;
    }
}

size_t asked_count(void)
{
    return words.count;
}

uint64_t asked_word(size_t number)
{
    return words.offsets[number];
}

void begin_words(void)
{
    for (size_t i = 0; i < words.page_count; i++) {
        struct page *page = words.pages[i];
        if (!page)
            continue;
        memset(page->read, 0, sizeof page->read);
        memset(page->overwritten, 0, sizeof page->overwritten);
        page->unread = page->traps = 0;
        for (unsigned word = 0; word < PAGE_WORDS; word++)
            page->unread += page->asked[word];
        page->unsettled = page->unread;
    }
    words.unread = words.unsettled = words.count;
    words.all_read = words.has_private = false;
    words.traps = 0;
}

void read_word(uint64_t word)
{
    struct page *page = page_of(word);
    unsigned number = word % PAGE / WORD;
    if (words.all_read || !page || !page->asked[number] || page->read[number])
        return;
    page->read[number] = 1;
    page->unread--;
    words.unread--;
    if (page->overwritten[number] != ALL_BYTES) {
        page->unsettled--;
        words.unsettled--;
    }
    printf("read %lx\n", word);
}

bool is_read(uint64_t word)
{
    struct page *page = page_of(word);
    return words.all_read || !page || page->read[word % PAGE / WORD];
}

// The bits of the bytes of a word that are FROM up to TO.
static unsigned bytes_of(uint64_t word, uint64_t from, uint64_t to)
{
    unsigned bits = 0;
    for (unsigned i = 0; i < WORD; i++)
        if (word + i >= from && word + i < to)
            bits |= 1u << i;
    return bits;
}

void read_bytes(uint64_t from, uint64_t to, bool is_shared)
{
    if (to > asked_end())
        to = asked_end();
    for (uint64_t word = from & -(uint64_t)WORD; word < to; word += WORD) {
        struct page *page = page_of(word);
        if (!page) {
            word = (word | (PAGE - 1)) + 1 - WORD;
            continue;
        }
        unsigned overwritten = is_shared ? page->overwritten[word % PAGE / WORD] : 0;
        if (bytes_of(word, from, to) & ~overwritten)
            read_word(word);
    }
}

void overwrite_bytes(uint64_t from, uint64_t to)
{
    if (to > asked_end())
        to = asked_end();
    for (uint64_t word = from & -(uint64_t)WORD; word < to; word += WORD) {
        struct page *page = page_of(word);
        unsigned number = word % PAGE / WORD;
        if (!page || page->overwritten[number] == ALL_BYTES)
            continue;
        page->overwritten[number] |= (uint8_t)bytes_of(word, from, to);
        if (page->overwritten[number] == ALL_BYTES && page->asked[number] && !page->read[number]) {
            page->unsettled--;
            words.unsettled--;
        }
    }
}

void read_page(uint64_t offset)
{
    uint64_t begin = offset & -(uint64_t)PAGE;
    for (unsigned number = 0; number < PAGE_WORDS; number++)
        read_word(begin + WORD * number);
}

void read_all(const char *why)
{
    if (!is_all_known())
        printf("all %s\n", why);
    words.all_read = true;
}

void has_private_map(void)
{
    words.has_private = true;
}

bool is_page_known(uint64_t offset, bool is_shared)
{
    struct page *page = page_of(offset);
    return words.all_read || !page || (is_shared ? page->unsettled : page->unread) == 0;
}

bool is_all_known(void)
{
    return words.all_read || words.unread == 0 || (words.unsettled == 0 && !words.has_private);
}

bool is_page_asked(uint64_t offset)
{
    return page_of(offset) != NULL;
}

uint64_t asked_end(void)
{
    return words.page_count * PAGE;
}

unsigned count_trap(uint64_t offset)
{
    struct page *page = page_of(offset);
    words.traps++;
    return page ? ++page->traps : 0;
}

uint64_t all_traps(void)
{
    return words.traps;
}

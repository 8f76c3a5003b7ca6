#define _GNU_SOURCE
#include "code.h"

#include <stdlib.h>
#include <string.h>
#include <sys/mman.h>

#include "frames.h"
#include "options.h"
#include "points.h"
#include "program.h"
#include "sweep.h"

struct code {
    struct mapping mapping;
    struct object object; // if it has bytes
    struct sweep sweep;
    uint8_t *bytes; // as the program has them
    size_t size;    // whole pages
    bool has_breakpoints;
    bool has_sections; // its file says which parts of it are code
};
static struct code **pieces;
static size_t piece_count;

enum { BREAKPOINT = 0xcc };

// ---- the list

static struct code *piece_at(uint64_t address)
{
    for (size_t i = 0; i < piece_count; i++)
        if (address >= pieces[i]->mapping.start && address < pieces[i]->mapping.end)
            return pieces[i];
    return NULL;
}

static void free_piece(struct code *code)
{
    close_object(&code->object);
    free_sweep(&code->sweep);
    free(code->bytes);
    free(code);
}

static void remove_piece(size_t number)
{
    free_piece(pieces[number]);
    memmove(pieces + number, pieces + number + 1, (--piece_count - number) * sizeof *pieces);
}

// ---- breakpoints

static bool is_watched(const struct code *code, size_t place)
{
    return place < code->sweep.size && code->sweep.marks[place] & WATCHED && !code->sweep.is_doubtful[place / PAGE];
}

static bool has_watched(const struct code *code, size_t page)
{
    for (size_t place = page; place < page + PAGE; place++)
        if (is_watched(code, place))
            return true;
    return false;
}

// Puts the breakpoints of a page, or takes them out.
static void set_page(const struct code *code, size_t page, bool in)
{
    uint8_t bytes[PAGE];
    uint64_t address = code->mapping.start + page;
    if (!read_memory(address, bytes, sizeof bytes))
        stop(FAILED, "the code of the program cannot be read");
    for (size_t place = page; place < page + PAGE; place++)
        if (is_watched(code, place))
            bytes[place - page] = in ? BREAKPOINT : code->bytes[place];
    write_memory(address, bytes, sizeof bytes);
}

static void set_breakpoints(struct code *code, bool in)
{
    if (code->has_breakpoints == in || (in && options.step))
        return;
    for (size_t page = 0; page < code->size; page += PAGE)
        if (has_watched(code, page))
            set_page(code, page, in);
    code->has_breakpoints = in;
}

void take_out_all_breakpoints(void)
{
    for (size_t i = 0; i < piece_count; i++)
        set_breakpoints(pieces[i], false);
}

bool has_breakpoint(uint64_t address)
{
    const struct code *code = piece_at(address);
    return code && code->has_breakpoints && is_watched(code, address - code->mapping.start);
}

void lift_breakpoint(uint64_t address)
{
    const struct code *code = piece_at(address);
    write_memory(address, code->bytes + (address - code->mapping.start), 1);
}

void put_breakpoint(uint64_t address)
{
    static const uint8_t breakpoint = BREAKPOINT;
    write_memory(address, &breakpoint, 1);
}

void hide_breakpoints(uint64_t address, uint8_t *bytes, size_t count)
{
    for (size_t i = 0; i < count; i++)
        if (bytes[i] == BREAKPOINT && has_breakpoint(address + i)) {
            const struct code *code = piece_at(address + i);
            bytes[i] = code->bytes[address + i - code->mapping.start];
        }
}

void watch_place(uint64_t address)
{
    struct code *code = piece_at(address);
    size_t place = code ? address - code->mapping.start : 0;
    if (!code || place >= code->sweep.size || is_watched(code, place))
        return;
    code->sweep.marks[place] |= WATCHED;
    if (code->has_breakpoints && is_watched(code, place))
        put_breakpoint(address);
}

// ---- looking through

static void use_function(void *context, uint64_t start, uint64_t end)
{
    struct code *code = context;
    uint64_t base = code->mapping.start - code->object.bias;
    sweep_function(&code->sweep, start - base, end - base);
}

static void use_section(void *context, uint64_t start, uint64_t end)
{
    struct code *code = context;
    uint64_t base = code->mapping.start - code->object.bias;
    code->has_sections = true;
    if (start >= base)
        sweep_rest(&code->sweep, start - base, end - base);
}

static void use_pointer(void *context, uint64_t address)
{
    struct code *code = context;
    sweep_from(&code->sweep, address - (code->mapping.start - code->object.bias));
}

// Code that the program may write, or that others have too, or of which no file tells, is not understood.
static bool is_understandable(const struct code *code)
{
    return code->object.bytes && !code->mapping.shared && !(code->mapping.protection & PROT_WRITE);
}

// How much of the mapping the file has as code. Behind it are bytes that only fill the page.
static size_t size_of_code(const struct code *code)
{
    uint64_t size = bytes_from(&code->object, code->mapping.start - code->object.bias);
    return size > 0 && size < code->size ? size : code->size;
}

static void look_through(struct code *code)
{
    if (!is_understandable(code)) {
        begin_sweep(&code->sweep, code->bytes, code->size);
        doubt_all(&code->sweep);
        return;
    }
    begin_sweep(&code->sweep, code->bytes, size_of_code(code));
    each_frame(&code->object, use_function, code);
    each_sized_function(&code->object, use_function, code);
    follow_targets(&code->sweep);
    each_pointer(&code->object, use_pointer, code);
    follow_targets(&code->sweep);
    each_section(&code->object, use_section, code);
    if (!code->has_sections)
        sweep_rest(&code->sweep, 0, code->sweep.size);
    // The kernel does not protect a part of its own pages.
    if (code->mapping.path[0] != '[')
        doubt_unread_pages(&code->sweep);
    else if (has_doubts(&code->sweep))
        doubt_all(&code->sweep);
}

static void add_piece(const struct mapping *mapping)
{
    struct code *code = calloc(1, sizeof *code);
    pieces = realloc(pieces, (piece_count + 1) * sizeof *pieces);
    if (!code || !pieces)
        stop(FAILED, "out of memory");
    code->mapping = *mapping;
    code->size = mapping->end - mapping->start;
    code->bytes = malloc(code->size);
    if (!code->bytes)
        stop(FAILED, "out of memory");
    open_object(mapping, &code->object);
    // What cannot be read, as behind the end of a file, cannot be run either.
    size_t count = read_memory(mapping->start, code->bytes, code->size) ? code->size : 0;
    memset(code->bytes + count, 0, code->size - count);
    if (count == 0)
        close_object(&code->object);
    look_through(code);
    pieces[piece_count++] = code;
    if (code->object.bytes)
        look_for_points(&code->object);
    set_breakpoints(code, true);
}

// ---- what is mapped

// The kernel's page of old system calls is no memory.
static bool is_code(const struct mapping *mapping)
{
    return mapping->executable && strcmp(mapping->path, "[vsyscall]") != 0;
}

static bool goes_on(const struct mapping *before, const struct mapping *mapping)
{
    return before->end == mapping->start && before->inode == mapping->inode &&
           before->protection == mapping->protection && before->shared == mapping->shared &&
           !strcmp(before->path, mapping->path) &&
           (before->inode == 0 || before->offset + (before->end - before->start) == mapping->offset);
}

static bool is_same(const struct mapping *one, const struct mapping *other)
{
    return one->start == other->start && one->end == other->end && one->inode == other->inode &&
           one->offset == other->offset && one->protection == other->protection && one->shared == other->shared &&
           !strcmp(one->path, other->path);
}

// Mappings of code; those that the kernel shows in parts are one.
static struct mapping *list_code(size_t *count)
{
    struct mapping mapping, *list = NULL;
    FILE *mappings = open_mappings(program);
    *count = 0;
    while (next_mapping(mappings, &mapping)) {
        if (!is_code(&mapping))
            continue;
        if (*count > 0 && goes_on(&list[*count - 1], &mapping)) {
            list[*count - 1].end = mapping.end;
            continue;
        }
        list = realloc(list, (*count + 1) * sizeof *list);
        if (!list)
            stop(FAILED, "out of memory");
        list[(*count)++] = mapping;
    }
    fclose(mappings);
    return list;
}

static bool is_listed(const struct mapping *wanted, const struct mapping *list, size_t count)
{
    for (size_t i = 0; i < count; i++)
        if (is_same(wanted, &list[i]))
            return true;
    return false;
}

static bool is_known(const struct mapping *mapping)
{
    for (size_t i = 0; i < piece_count; i++)
        if (is_same(mapping, &pieces[i]->mapping))
            return true;
    return false;
}

void find_code(void)
{
    size_t count;
    struct mapping *list = list_code(&count);
    for (size_t i = piece_count; i-- > 0;)
        if (!is_listed(&pieces[i]->mapping, list, count))
            remove_piece(i);
    for (size_t i = 0; i < count; i++)
        if (!is_known(&list[i]))
            add_piece(&list[i]);
    free(list);
}

void forget_code(uint64_t start, uint64_t end)
{
    for (size_t i = piece_count; i-- > 0;) {
        if (pieces[i]->mapping.start >= end || pieces[i]->mapping.end <= start)
            continue;
        set_breakpoints(pieces[i], false);
        remove_piece(i);
    }
}

// ---- code that is stepped

bool is_stepped_code(uint64_t address)
{
    const struct code *code = piece_at(address);
    return !code || (address - code->mapping.start < code->sweep.size &&
                     code->sweep.is_doubtful[(address - code->mapping.start) / PAGE]);
}

bool is_foreseen(uint64_t address, bool is_watched)
{
    const struct code *code = piece_at(address);
    if (is_stepped_code(address))
        return true;
    size_t place = address - code->mapping.start;
    if (place >= code->sweep.size || !(code->sweep.marks[place] & (START | TRIED)))
        return false;
    return !is_watched || code->sweep.marks[place] & WATCHED;
}

// The next page from a place on that is doubtful, or not; or the end.
static size_t next_page(const struct code *code, size_t place, bool is_doubtful)
{
    while (place < code->size && (place < code->sweep.size && code->sweep.is_doubtful[place / PAGE]) != is_doubtful)
        place += PAGE;
    return place;
}

bool next_stepped_code(uint64_t *start, uint64_t *end, int *protection)
{
    const struct code *found = NULL;
    uint64_t from = UINT64_MAX;
    for (size_t i = 0; i < piece_count; i++) {
        const struct code *code = pieces[i];
        size_t begin = *start > code->mapping.start ? *start - code->mapping.start : 0;
        size_t place = next_page(code, begin, true);
        if (place < code->size && code->mapping.start + place < from) {
            from = code->mapping.start + place;
            found = code;
        }
    }
    if (!found)
        return false;
    *start = from;
    *end = found->mapping.start + next_page(found, from - found->mapping.start, false);
    *protection = found->mapping.protection;
    return true;
}

uint64_t system_call_place(void)
{
    static const uint8_t instruction[] = {0x0f, 0x05};
    for (size_t i = 0; i < piece_count; i++) {
        const struct code *code = pieces[i];
        const uint8_t *end = code->bytes + code->size, *at = code->bytes;
        while ((at = memmem(at, (size_t)(end - at), instruction, sizeof instruction))) {
            uint64_t address = code->mapping.start + (uint64_t)(at - code->bytes);
            if (!is_stepped_code(address) && !is_stepped_code(address + 1) && !has_breakpoint(address + 1))
                return address;
            at++;
        }
    }
    return 0;
}

const struct object *object_of(uint64_t address)
{
    const struct code *code = piece_at(address);
    return code && code->object.bytes ? &code->object : NULL;
}

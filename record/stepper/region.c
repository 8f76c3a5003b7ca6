#define _GNU_SOURCE
#include "region.h"

#include <errno.h>
#include <fcntl.h>
#include <stdlib.h>
#include <string.h>
#include <sys/mman.h>
#include <sys/stat.h>
#include <unistd.h>

#include "program.h"

// A piece of the program's memory that is a piece of the region.
struct piece {
    uint64_t start, end, offset;
};
static struct piece *pieces;
static size_t piece_count, piece_room;

// A file of the region; or the symbol, as if it were the first.
struct part {
    char path[PATH_MAX];
    int file; // once it is there, or -1
    uint64_t size;
    uint8_t *shadow;
    uint64_t room; // for how many bytes the shadow has room
};
static struct part parts[MOST_FILES];
static unsigned part_count;
static const char *symbol; // or NULL, if it is of files
static bool has_begun;     // the shadows are read

static struct part *part_of(uint64_t offset)
{
    return &parts[offset / FILE_ROOM];
}

static uint64_t start_of(const struct part *part)
{
    return (uint64_t)(part - parts) * FILE_ROOM;
}

// ---- which region

void choose_file(const char *path)
{
    if (part_count == MOST_FILES)
        stop(FAILED, "there are more than %d files", MOST_FILES);
    struct part *part = &parts[part_count++];
    part->file = -1;
    char folder[PATH_MAX], real[PATH_MAX];
    snprintf(folder, sizeof folder, "%s", path);
    char *slash = strrchr(folder, '/');
    const char *name = slash ? path + (slash + 1 - folder) : path;
    if (slash)
        slash[slash == folder] = 0;
    if (!realpath(slash ? folder : ".", real))
        stop(FAILED, "%s: the folder of the file: %s", path, strerror(errno));
    if (snprintf(part->path, sizeof part->path, "%s/%s", real, name) >= (int)sizeof part->path)
        stop(FAILED, "%s: %s", path, strerror(ENAMETOOLONG));
}

static void add_piece(struct piece piece)
{
    if (piece_count == piece_room) {
        piece_room = 2 * piece_room + 4;
        pieces = realloc(pieces, piece_room * sizeof *pieces);
        if (!pieces)
            stop(FAILED, "out of memory");
    }
    pieces[piece_count++] = piece;
}

void choose_symbol(const char *name)
{
    uint64_t address;
    symbol = name;
    part_count = 1;
    parts[0].file = -1;
    find_symbol(name, &address, &parts[0].size);
    if (address % LINE != 0)
        stop(FAILED, "the symbol %s does not begin at a cache line (its address is no multiple of %d)", name, LINE);
    add_piece((struct piece){address, address + parts[0].size, 0});
}

unsigned file_count(void)
{
    return part_count;
}

const char *name_of_file(unsigned number)
{
    return symbol ? symbol : parts[number].path;
}

const char *region_name(void)
{
    return name_of_file(0);
}

uint64_t end_of_file(uint64_t offset)
{
    return start_of(part_of(offset)) + part_of(offset)->size;
}

uint64_t region_size(void)
{
    uint64_t size = 0;
    for (unsigned i = 0; i < part_count; i++)
        size += parts[i].size;
    return size;
}

bool region_is_file(void)
{
    return !symbol;
}

// ---- where it is

// How /proc/PROCESS/maps names the file. It may name another device than stat does, so the file is mapped and looked
// up.
static bool name_in_mappings(const struct part *part, struct mapping *named)
{
    void *page = part->file < 0 ? MAP_FAILED : mmap(NULL, 1, PROT_READ, MAP_SHARED, part->file, 0);
    if (page == MAP_FAILED)
        return false;
    bool found = false;
    FILE *mappings = open_mappings(getpid());
    while (!found && next_mapping(mappings, named))
        found = named->start == (uint64_t)page;
    fclose(mappings);
    munmap(page, 1);
    return found;
}

// Opens the file that has the path. Before the recording this may be another file each time.
static bool open_file(struct part *part)
{
    struct stat found;
    if (part->file >= 0)
        close(part->file);
    part->size = 0;
    part->file = open(part->path, O_RDONLY | O_CLOEXEC);
    if (part->file < 0 && errno == ENOENT)
        return false;
    if (part->file < 0 || fstat(part->file, &found))
        stop(FAILED, "%s: %s", part->path, strerror(errno));
    if (!S_ISREG(found.st_mode))
        stop(FAILED, "%s is no regular file", part->path);
    part->size = (uint64_t)found.st_size;
    return true;
}

static void open_files(void)
{
    for (unsigned i = 0; i < part_count && !has_begun && !symbol; i++)
        open_file(&parts[i]);
}

// Takes note of where the program has mapped a file.
static void find_pieces(const struct part *part)
{
    struct mapping named, mapping;
    if (!name_in_mappings(part, &named))
        return;
    FILE *mappings = open_mappings(program);
    while (next_mapping(mappings, &mapping))
        if (mapping.shared && mapping.inode == named.inode && mapping.major == named.major &&
            mapping.minor == named.minor)
            add_piece((struct piece){mapping.start, mapping.end, start_of(part) + mapping.offset});
    fclose(mappings);
}

bool find_region(void)
{
    if (symbol)
        return true;
    piece_count = 0;
    open_files();
    for (unsigned i = 0; i < part_count; i++)
        find_pieces(&parts[i]);
    return piece_count > 0 && region_size() > 0;
}

bool is_in_region(uint64_t address, uint64_t *offset)
{
    for (size_t i = 0; i < piece_count; i++)
        if (address >= pieces[i].start && address < pieces[i].end) {
            *offset = pieces[i].offset + (address - pieces[i].start);
            return true;
        }
    return false;
}

bool touches_region(uint64_t address, uint64_t count)
{
    for (size_t i = 0; i < piece_count; i++)
        if (address < pieces[i].end && address + count > pieces[i].start)
            return true;
    return false;
}

bool next_part(uint64_t *start, uint64_t end, uint64_t *offset, uint64_t *length)
{
    const struct piece *next = NULL;
    if (*start >= end)
        return false;
    for (size_t i = 0; i < piece_count; i++)
        if (pieces[i].end > *start && pieces[i].start < end && (!next || pieces[i].start < next->start))
            next = &pieces[i];
    if (!next)
        return false;
    uint64_t from = next->start > *start ? next->start : *start;
    uint64_t to = next->end < end ? next->end : end;
    *offset = next->offset + (from - next->start);
    *length = to - from;
    *start = to;
    return true;
}

static bool is_same_file(const struct stat *one, const struct stat *other)
{
    return one->st_dev == other->st_dev && one->st_ino == other->st_ino;
}

bool is_descriptor_of_region(int descriptor, uint64_t *offset)
{
    struct stat mine, other;
    for (unsigned i = 0; i < part_count; i++)
        if (parts[i].file >= 0 && fstat(parts[i].file, &mine) == 0 && file_of_descriptor(descriptor, &other) &&
            is_same_file(&mine, &other)) {
            *offset = start_of(&parts[i]);
            return true;
        }
    return false;
}

bool is_descriptor_of_file(int descriptor)
{
    uint64_t offset;
    open_files();
    return is_descriptor_of_region(descriptor, &offset);
}

bool is_file_open(void)
{
    int descriptor = -1;
    while (next_descriptor(&descriptor))
        if (is_descriptor_of_file(descriptor))
            return true;
    return false;
}

bool is_descriptor_of_successor(int descriptor)
{
    struct stat named, other;
    uint64_t offset;
    for (unsigned i = 0; i < part_count && !symbol; i++)
        if (stat(parts[i].path, &named) == 0 && file_of_descriptor(descriptor, &other) && is_same_file(&named, &other))
            return !is_descriptor_of_region(descriptor, &offset);
    return false;
}

// ---- the shadow

enum { BLOCK = 1 << 16 };
static const uint8_t zeros[BLOCK];

// Reads bytes of the region: of a file from the file (a shared mapping and the file are the same memory, also where it
// is no longer mapped), of a symbol from the program's memory.
bool read_region(uint64_t offset, void *to, uint64_t count)
{
    if (symbol)
        return read_memory(pieces[0].start + offset, to, count);
    return pread(part_of(offset)->file, to, count, (off_t)(offset % FILE_ROOM)) == (ssize_t)count;
}

// A part of a file that was written, or a hole of it, which reads as zeros, up to its end.
struct stretch {
    uint64_t end;
    bool is_hole;
};

static struct stretch stretch_at(const struct part *part, uint64_t place)
{
    if (symbol)
        return (struct stretch){part->size, false};
    off_t data = lseek(part->file, (off_t)place, SEEK_DATA);
    bool is_hole = data < 0 ? errno == ENXIO : (uint64_t)data > place;
    off_t end = is_hole ? data : lseek(part->file, (off_t)place, SEEK_HOLE);
    return (struct stretch){end < 0 || (uint64_t)end > part->size ? part->size : (uint64_t)end, is_hole};
}

// The end of the block that begins at a place. Its stretch is looked for once: some file systems go through all pages up to the end.
static uint64_t end_of_block(const struct part *part, uint64_t place, struct stretch *stretch)
{
    if (place >= stretch->end)
        *stretch = stretch_at(part, place);
    return place + BLOCK < stretch->end ? place + BLOCK : stretch->end;
}

static void read_shadow_of(struct part *part)
{
    struct stretch stretch = {0};
    part->room = part->size + BLOCK;
    part->shadow = mmap(NULL, part->room, PROT_READ | PROT_WRITE, MAP_PRIVATE | MAP_ANONYMOUS | MAP_NORESERVE, -1, 0);
    if (part->shadow == MAP_FAILED)
        stop(FAILED, "out of memory");
    for (uint64_t start = 0, end; start < part->size; start = end) {
        end = end_of_block(part, start, &stretch);
        if (!stretch.is_hole && !read_region(start_of(part) + start, part->shadow + start, end - start))
            stop(FAILED, "the region cannot be read");
    }
}

void read_shadow(void)
{
    for (unsigned i = 0; i < part_count; i++)
        read_shadow_of(&parts[i]);
    has_begun = true;
}

void store_in_shadow(uint64_t offset, const void *bytes, uint64_t count)
{
    memcpy(part_of(offset)->shadow + offset % FILE_ROOM, bytes, count);
}

// A file that is made or removed while it is recorded. One that is not there is as one without bytes.
static void follow_name(struct part *part)
{
    struct stat named, mine;
    bool is_there = stat(part->path, &named) == 0;
    bool is_same = part->file >= 0 && is_there && fstat(part->file, &mine) == 0 && is_same_file(&named, &mine);
    if (is_same || (part->file < 0 && !is_there))
        return;
    uint64_t size = part->size;
    open_file(part);
    part->size = size;
}

static void resize_shadow(struct part *part, uint64_t now)
{
    uint64_t wanted = now + BLOCK;
    if (now < part->size)
        memset(part->shadow + now, 0, part->size - now);
    if (wanted > part->room) {
        part->shadow = mremap(part->shadow, part->room, wanted, MREMAP_MAYMOVE);
        if (part->shadow == MAP_FAILED)
            stop(FAILED, "out of memory");
        part->room = wanted;
    }
    part->size = now;
}

bool follow_size(unsigned number, uint64_t *size)
{
    struct part *part = &parts[number];
    struct stat found = {0};
    if (symbol)
        return false;
    // The first file is one from beginning to end: another of its name is refused.
    if (number > 0)
        follow_name(part);
    if (part->file >= 0 && fstat(part->file, &found))
        stop(FAILED, "%s: %s", part->path, strerror(errno));
    *size = (uint64_t)found.st_size;
    if (*size == part->size)
        return false;
    resize_shadow(part, *size);
    return true;
}

static bool differs(const struct part *part, uint64_t *offset)
{
    static uint8_t now[BLOCK];
    struct stretch stretch = {0};
    struct stat found;
    if (part->file >= 0 && (fstat(part->file, &found) || (uint64_t)found.st_size != part->size)) {
        *offset = (uint64_t)found.st_size < part->size ? (uint64_t)found.st_size : part->size;
        return true;
    }
    for (uint64_t start = 0, end; start < part->size; start = end) {
        end = end_of_block(part, start, &stretch);
        *offset = start;
        if (!stretch.is_hole && !read_region(start_of(part) + start, now, end - start))
            return true;
        const uint8_t *real = stretch.is_hole ? zeros : now;
        if (!memcmp(real, part->shadow + start, end - start))
            continue;
        while (real[*offset - start] == part->shadow[*offset])
            ++*offset;
        return true;
    }
    return false;
}

bool differs_from_shadow(uint64_t *offset)
{
    for (unsigned i = 0; i < part_count; i++)
        if (differs(&parts[i], offset)) {
            *offset += start_of(&parts[i]);
            return true;
        }
    return false;
}

void write_shadow(unsigned number, const char *path)
{
    const struct part *part = &parts[number];
    int to = open(path, O_CREAT | O_TRUNC | O_WRONLY | O_CLOEXEC, 0666);
    bool good = to >= 0 && ftruncate(to, (off_t)part->size) == 0;
    for (uint64_t start = 0, count; good && start < part->size; start += count) {
        count = part->size - start < BLOCK ? part->size - start : BLOCK;
        // Blocks of zeros are left as holes. A write that is cut short sets no errno: the disk is full.
        errno = ENOSPC;
        if (memcmp(part->shadow + start, zeros, count))
            good = pwrite(to, part->shadow + start, count, (off_t)start) == (ssize_t)count;
    }
    if (!good || close(to))
        stop(FAILED, "%s cannot be written: %s", path, strerror(errno));
}

#include "objects.h"

#include <elf.h>
#include <fcntl.h>
#include <stdlib.h>
#include <string.h>
#include <sys/mman.h>
#include <sys/stat.h>
#include <unistd.h>

// ---- a file

static bool map_file(const struct mapping *mapping, struct object *object)
{
    char path[PATH_MAX + 64];
    struct stat found;
    snprintf(path, sizeof path, "/proc/%d/root%s", program, mapping->path);
    int file = open(path, O_RDONLY | O_CLOEXEC);
    if (file < 0)
        return false;
    object->bytes = MAP_FAILED;
    if (fstat(file, &found) == 0 && found.st_ino == mapping->inode && found.st_size > 0) {
        object->size = (size_t)found.st_size;
        object->bytes = mmap(NULL, object->size, PROT_READ, MAP_PRIVATE, file, 0);
    }
    close(file);
    return object->bytes != MAP_FAILED;
}

// The vdso is a whole file in memory.
static bool copy_from_memory(const struct mapping *mapping, struct object *object)
{
    object->size = mapping->end - mapping->start;
    void *copy = mmap(NULL, object->size, PROT_READ | PROT_WRITE, MAP_PRIVATE | MAP_ANONYMOUS, -1, 0);
    if (copy == MAP_FAILED)
        stop(FAILED, "out of memory");
    object->bytes = copy;
    return read_memory(mapping->start, copy, object->size);
}

void close_object(struct object *object)
{
    if (object->bytes)
        munmap((void *)object->bytes, object->size);
    object->bytes = NULL;
}

// Bytes at an offset, or NULL if the file does not have them.
static const void *part(const struct object *object, uint64_t offset, uint64_t size)
{
    return offset > object->size || size > object->size - offset ? NULL : object->bytes + offset;
}

// ---- segments

static const Elf64_Ehdr *header_of(const struct object *object)
{
    const Elf64_Ehdr *header = part(object, 0, sizeof *header);
    if (!header || memcmp(header->e_ident, ELFMAG, SELFMAG) || header->e_ident[EI_CLASS] != ELFCLASS64 ||
        header->e_machine != EM_X86_64)
        return NULL;
    return header;
}

static const Elf64_Phdr *segments_of(const struct object *object, size_t *count)
{
    const Elf64_Ehdr *header = header_of(object);
    *count = header ? header->e_phnum : 0;
    const Elf64_Phdr *segments = header ? part(object, header->e_phoff, *count * sizeof *segments) : NULL;
    if (!segments)
        *count = 0;
    return segments;
}

// What is added to an address of the file, by the segment that the mapping begins in.
static bool find_bias(const struct mapping *mapping, struct object *object)
{
    enum { PAGE = 4096 };
    size_t count;
    const Elf64_Phdr *segments = segments_of(object, &count);
    for (size_t i = 0; i < count; i++) {
        const Elf64_Phdr *it = &segments[i];
        uint64_t start = it->p_offset & -(uint64_t)PAGE;
        if (it->p_type == PT_LOAD && it->p_flags & PF_X && mapping->offset >= start &&
            mapping->offset < it->p_offset + it->p_filesz) {
            object->bias = mapping->start - mapping->offset + it->p_offset - it->p_vaddr;
            return true;
        }
    }
    return false;
}

bool open_object(const struct mapping *mapping, struct object *object)
{
    *object = (struct object){0};
    bool is_file = mapping->path[0] == '/';
    if (is_file ? !map_file(mapping, object) : strcmp(mapping->path, "[vdso]") || !copy_from_memory(mapping, object)) {
        object->bytes = NULL;
        return false;
    }
    if (find_bias(mapping, object))
        return true;
    close_object(object);
    return false;
}

// The segment that has an address, or NULL.
static const Elf64_Phdr *segment_at(const struct object *object, uint64_t address)
{
    size_t count;
    const Elf64_Phdr *segments = segments_of(object, &count);
    for (size_t i = 0; i < count; i++)
        if (segments[i].p_type == PT_LOAD && address >= segments[i].p_vaddr &&
            address - segments[i].p_vaddr < segments[i].p_filesz)
            return &segments[i];
    return NULL;
}

uint64_t bytes_from(const struct object *object, uint64_t address)
{
    const Elf64_Phdr *segment = segment_at(object, address);
    return segment ? segment->p_filesz - (address - segment->p_vaddr) : 0;
}

const uint8_t *bytes_at(const struct object *object, uint64_t address, uint64_t size)
{
    const Elf64_Phdr *segment = segment_at(object, address);
    if (!segment || size > segment->p_filesz - (address - segment->p_vaddr))
        return NULL;
    return part(object, segment->p_offset + (address - segment->p_vaddr), size);
}

bool find_segment(const struct object *object, uint32_t kind, uint64_t *address, uint64_t *size)
{
    size_t count;
    const Elf64_Phdr *segments = segments_of(object, &count);
    for (size_t i = 0; i < count; i++)
        if (segments[i].p_type == kind) {
            *address = segments[i].p_vaddr;
            *size = segments[i].p_filesz;
            return true;
        }
    return false;
}

// ---- sections and symbols

static const Elf64_Shdr *sections_of(const struct object *object, size_t *count)
{
    const Elf64_Ehdr *header = header_of(object);
    *count = header ? header->e_shnum : 0;
    const Elf64_Shdr *sections = header ? part(object, header->e_shoff, *count * sizeof *sections) : NULL;
    if (!sections)
        *count = 0;
    return sections;
}

static const Elf64_Sym *symbols_of(const struct object *object, const Elf64_Shdr *table, size_t *count)
{
    *count = 0;
    if (table->sh_type != SHT_SYMTAB && table->sh_type != SHT_DYNSYM)
        return NULL;
    const Elf64_Sym *symbols = part(object, table->sh_offset, table->sh_size);
    if (symbols)
        *count = table->sh_size / sizeof *symbols;
    return symbols;
}

static bool is_function(const Elf64_Sym *symbol)
{
    unsigned kind = ELF64_ST_TYPE(symbol->st_info);
    return symbol->st_shndx != SHN_UNDEF && (kind == STT_FUNC || kind == STT_GNU_IFUNC);
}

void each_section(const struct object *object, void (*use)(void *context, uint64_t start, uint64_t end), void *context)
{
    size_t count;
    const Elf64_Shdr *sections = sections_of(object, &count);
    for (size_t i = 0; i < count; i++)
        if (sections[i].sh_flags & SHF_EXECINSTR && sections[i].sh_type == SHT_PROGBITS)
            use(context, sections[i].sh_addr, sections[i].sh_addr + sections[i].sh_size);
}

void each_sized_function(const struct object *object, void (*use)(void *context, uint64_t start, uint64_t end),
                         void *context)
{
    size_t section_count, symbol_count;
    const Elf64_Shdr *sections = sections_of(object, &section_count);
    for (size_t i = 0; i < section_count; i++) {
        const Elf64_Sym *symbols = symbols_of(object, &sections[i], &symbol_count);
        for (size_t k = 0; k < symbol_count; k++)
            if (is_function(&symbols[k]) && symbols[k].st_size > 0)
                use(context, symbols[k].st_value, symbols[k].st_value + symbols[k].st_size);
    }
}

static void use_relocations(const struct object *object, const Elf64_Shdr *table,
                            void (*use)(void *context, uint64_t address), void *context)
{
    const Elf64_Rela *rows = part(object, table->sh_offset, table->sh_size);
    for (size_t i = 0; rows && i < table->sh_size / sizeof *rows; i++)
        if (ELF64_R_TYPE(rows[i].r_info) == R_X86_64_RELATIVE || ELF64_R_TYPE(rows[i].r_info) == R_X86_64_IRELATIVE)
            use(context, (uint64_t)rows[i].r_addend);
}

// The functions that run before the program's own, and after it.
static void use_array(const struct object *object, const Elf64_Shdr *table,
                      void (*use)(void *context, uint64_t address), void *context)
{
    const uint64_t *rows = part(object, table->sh_offset, table->sh_size);
    for (size_t i = 0; rows && i < table->sh_size / sizeof *rows; i++)
        use(context, rows[i]);
}

void each_pointer(const struct object *object, void (*use)(void *context, uint64_t address), void *context)
{
    size_t section_count, symbol_count;
    const Elf64_Shdr *sections = sections_of(object, &section_count);
    if (header_of(object))
        use(context, header_of(object)->e_entry);
    for (size_t i = 0; i < section_count; i++) {
        if (sections[i].sh_type == SHT_RELA)
            use_relocations(object, &sections[i], use, context);
        if (sections[i].sh_type == SHT_INIT_ARRAY || sections[i].sh_type == SHT_FINI_ARRAY)
            use_array(object, &sections[i], use, context);
        const Elf64_Sym *symbols = symbols_of(object, &sections[i], &symbol_count);
        for (size_t k = 0; k < symbol_count; k++)
            if (is_function(&symbols[k]) && symbols[k].st_size == 0)
                use(context, symbols[k].st_value);
        if (sections[i].sh_flags & SHF_EXECINSTR)
            use(context, sections[i].sh_addr);
    }
}

static bool has_name(const struct object *object, const Elf64_Shdr *names, const Elf64_Sym *symbol, const char *name)
{
    size_t size = strlen(name) + 1;
    if (symbol->st_name > names->sh_size || size > names->sh_size - symbol->st_name)
        return false;
    const char *found = part(object, names->sh_offset + symbol->st_name, size);
    return found && !memcmp(found, name, size);
}

void each_function(const struct object *object, const char *name, void (*use)(void *context, uint64_t address),
                   void *context)
{
    size_t section_count, symbol_count;
    const Elf64_Shdr *sections = sections_of(object, &section_count);
    for (size_t i = 0; i < section_count; i++) {
        const Elf64_Sym *symbols = symbols_of(object, &sections[i], &symbol_count);
        if (sections[i].sh_link >= section_count)
            continue;
        for (size_t k = 0; k < symbol_count; k++)
            if (is_function(&symbols[k]) && ELF64_ST_TYPE(symbols[k].st_info) == STT_FUNC &&
                has_name(object, &sections[sections[i].sh_link], &symbols[k], name))
                use(context, symbols[k].st_value);
    }
}

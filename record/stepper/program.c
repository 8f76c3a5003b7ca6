#include "program.h"

#include <dirent.h>
#include <elf.h>
#include <errno.h>
#include <fcntl.h>
#include <signal.h>
#include <stdarg.h>
#include <stdlib.h>
#include <string.h>
#include <sys/mman.h>
#include <sys/stat.h>
#include <unistd.h>

pid_t program;
static int memory = -1;

void stop(int status, const char *format, ...)
{
    va_list arguments;
    va_start(arguments, format);
    fputs("px86-record: ", stderr);
    vfprintf(stderr, format, arguments);
    fputc('\n', stderr);
    va_end(arguments);
    if (program > 0)
        kill(program, SIGKILL);
    exit(status);
}

// The path of a file that /proc has of the program.
static const char *proc_path(const char *name)
{
    static char path[64];
    snprintf(path, sizeof path, "/proc/%d/%s", program, name);
    return path;
}

// ---- memory

void open_memory(void)
{
    if (memory >= 0)
        close(memory);
    memory = open(proc_path("mem"), O_RDWR | O_CLOEXEC);
    if (memory < 0)
        stop(FAILED, "the memory of the program cannot be read: %s", strerror(errno));
}

bool read_memory(uint64_t address, void *to, size_t count)
{
    return pread(memory, to, count, (off_t)address) == (ssize_t)count;
}

size_t read_memory_up_to(uint64_t address, void *to, size_t count)
{
    while (count > 0 && !read_memory(address, to, count))
        count--;
    return count;
}

void write_memory(uint64_t address, const void *from, size_t count)
{
    if (pwrite(memory, from, count, (off_t)address) != (ssize_t)count)
        stop(FAILED, "the memory of the program cannot be written: %s", strerror(errno));
}

// ---- mappings

FILE *open_mappings(pid_t process)
{
    char path[64];
    snprintf(path, sizeof path, "/proc/%d/maps", process);
    FILE *mappings = fopen(path, "re");
    if (!mappings)
        stop(FAILED, "%s: %s", path, strerror(errno));
    return mappings;
}

bool next_mapping(FILE *mappings, struct mapping *mapping)
{
    static char line[PATH_MAX + 128];
    char flags[5];
    int path = 0;
    if (!fgets(line, sizeof line, mappings))
        return false;
    line[strcspn(line, "\n")] = 0;
    if (sscanf(line, "%lx-%lx %4s %lx %x:%x %lu %n", &mapping->start, &mapping->end, flags, &mapping->offset,
               &mapping->major, &mapping->minor, &mapping->inode, &path) != 7)
        stop(FAILED, "a line of /proc/%d/maps cannot be read: %s", program, line);
    mapping->executable = flags[2] == 'x';
    mapping->protection =
        (flags[0] == 'r' ? PROT_READ : 0) | (flags[1] == 'w' ? PROT_WRITE : 0) | (flags[2] == 'x' ? PROT_EXEC : 0);
    mapping->shared = flags[3] == 's';
    snprintf(mapping->path, sizeof mapping->path, "%s", line + path);
    return true;
}

// ---- the program's file

const char *program_path(void)
{
    static char path[PATH_MAX];
    ssize_t size = readlink(proc_path("exe"), path, sizeof path - 1);
    path[size > 0 ? size : 0] = 0;
    return path;
}

static const uint8_t *image; // the program's file, mapped whole
static size_t image_size;

static void map_image(void)
{
    struct stat file;
    int descriptor = open(proc_path("exe"), O_RDONLY | O_CLOEXEC);
    if (descriptor < 0 || fstat(descriptor, &file))
        stop(FAILED, "the program's file cannot be read: %s", strerror(errno));
    image_size = (size_t)file.st_size;
    image = mmap(NULL, image_size, PROT_READ, MAP_PRIVATE, descriptor, 0);
    if (image == MAP_FAILED)
        stop(FAILED, "the program's file cannot be read: %s", strerror(errno));
    close(descriptor);
}

// Some bytes of the program's file. Stops if it does not have them.
static const void *image_part(uint64_t offset, uint64_t size)
{
    if (!image)
        map_image();
    if (offset > image_size || size > image_size - offset)
        stop(FAILED, "%s is no whole ELF file", program_path());
    return image + offset;
}

static const Elf64_Ehdr *elf_header(void)
{
    const Elf64_Ehdr *header = image_part(0, sizeof *header);
    if (memcmp(header->e_ident, ELFMAG, SELFMAG) || header->e_ident[EI_CLASS] != ELFCLASS64)
        stop(FAILED, "%s is no ELF file of 64 bits", program_path());
    return header;
}

uint64_t entry_point(void)
{
    Elf64_auxv_t entry = {0};
    FILE *vector = fopen(proc_path("auxv"), "re");
    while (vector && entry.a_type != AT_ENTRY && fread(&entry, sizeof entry, 1, vector) == 1)
        ;
    if (entry.a_type != AT_ENTRY)
        stop(FAILED, "the program's entry point cannot be found");
    fclose(vector);
    return entry.a_un.a_val;
}

// Looks in a table of symbols. Answers how many symbols of this name with a size it has at another place than *found.
static int look_up(const char *name, const Elf64_Shdr *table, const Elf64_Shdr *names, Elf64_Sym *found)
{
    int others = 0;
    const Elf64_Sym *symbols = image_part(table->sh_offset, table->sh_size);
    const char *text = image_part(names->sh_offset, names->sh_size);
    size_t length = strlen(name) + 1;
    for (size_t i = 0; i < table->sh_size / sizeof *symbols; i++) {
        const Elf64_Sym *symbol = &symbols[i];
        bool is_variable = symbol->st_size > 0 && ELF64_ST_TYPE(symbol->st_info) != STT_TLS;
        if (!is_variable || symbol->st_value == found->st_value || symbol->st_name > names->sh_size ||
            length > names->sh_size - symbol->st_name || memcmp(text + symbol->st_name, name, length))
            continue;
        *found = *symbol;
        others++;
    }
    return others;
}

void find_symbol(const char *name, uint64_t *address, uint64_t *size)
{
    Elf64_Sym found = {0};
    int count = 0;
    const Elf64_Ehdr *header = elf_header();
    const Elf64_Shdr *sections = image_part(header->e_shoff, header->e_shnum * sizeof *sections);
    for (int i = 0; i < header->e_shnum; i++)
        if ((sections[i].sh_type == SHT_SYMTAB || sections[i].sh_type == SHT_DYNSYM) &&
            sections[i].sh_link < header->e_shnum)
            count += look_up(name, &sections[i], &sections[sections[i].sh_link], &found);
    if (count == 0)
        stop(FAILED, "%s has no symbol %s with a size", program_path(), name);
    if (count > 1)
        stop(FAILED, "%s has more than one symbol %s", program_path(), name);
    *address = found.st_value + (entry_point() - header->e_entry);
    *size = found.st_size;
}

// ---- threads

// Opens a file that /proc has of a thread.
static FILE *open_of_thread(pid_t thread, const char *name)
{
    char path[64];
    snprintf(path, sizeof path, "/proc/%d/%s", thread, name);
    return fopen(path, "re");
}

char thread_state(pid_t thread)
{
    char line[512], state = 0;
    FILE *stat = open_of_thread(thread, "stat");
    if (!stat)
        return 0;
    // The name of the program is in parentheses, and may have any characters.
    char *name_end = fgets(line, sizeof line, stat) ? strrchr(line, ')') : NULL;
    if (name_end)
        sscanf(name_end, ") %c", &state);
    fclose(stat);
    return state;
}

// The number that a line of /proc/THREAD/status has behind this name, or 0.
static uint64_t status_field(pid_t thread, const char *name, int base)
{
    char line[512];
    uint64_t value = 0;
    FILE *status = open_of_thread(thread, "status");
    while (status && fgets(line, sizeof line, status))
        if (!strncmp(line, name, strlen(name)))
            value = strtoull(line + strlen(name), NULL, base);
    if (status)
        fclose(status);
    return value;
}

bool is_thread_of_program(pid_t thread)
{
    return status_field(thread, "Tgid:", 10) == (uint64_t)program;
}

void read_command(pid_t process, char *command, size_t size)
{
    char path[64];
    snprintf(path, sizeof path, "/proc/%d/cmdline", process);
    int file = open(path, O_RDONLY | O_CLOEXEC);
    ssize_t count = read(file, command, size - 1);
    close(file);
    // Each word ends with a zero.
    for (ssize_t i = 0; i + 1 < count; i++)
        if (command[i] < ' ' || command[i] > '~')
            command[i] = command[i] ? '?' : ' ';
    command[count > 0 ? count - (command[count - 1] == 0) : 0] = 0;
}

bool catches(pid_t thread, int signal)
{
    return status_field(thread, "SigCgt:", 16) >> (signal - 1) & 1;
}

bool ignores(pid_t thread, int signal)
{
    return status_field(thread, "SigIgn:", 16) >> (signal - 1) & 1;
}

bool is_filtered(pid_t thread)
{
    return status_field(thread, "Seccomp:", 10) != 0;
}

bool file_of_descriptor(int descriptor, struct stat *file)
{
    char name[32];
    snprintf(name, sizeof name, "fd/%d", descriptor);
    return stat(proc_path(name), file) == 0;
}

bool next_descriptor(int *descriptor)
{
    int next = INT_MAX, number;
    DIR *folder = opendir(proc_path("fd"));
    for (struct dirent *entry; folder && (entry = readdir(folder));)
        if (sscanf(entry->d_name, "%d", &number) == 1 && number > *descriptor && number < next)
            next = number;
    if (folder)
        closedir(folder);
    *descriptor = next;
    return next != INT_MAX;
}

bool state_of_descriptor(int number, struct descriptor *state)
{
    char name[32];
    snprintf(name, sizeof name, "fdinfo/%d", number);
    FILE *file = fopen(proc_path(name), "re");
    bool good = file && fscanf(file, "pos: %lu flags: %o", &state->position, &state->flags) == 2;
    if (file)
        fclose(file);
    return good;
}

const char *path_of_descriptor(int number)
{
    static char path[PATH_MAX];
    char name[32];
    snprintf(name, sizeof name, "fd/%d", number);
    ssize_t size = readlink(proc_path(name), path, sizeof path - 1);
    path[size > 0 ? size : 0] = 0;
    return path;
}

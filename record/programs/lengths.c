// Compares stepper/lengths.c with libcapstone: the length of each instruction of the code of ELF files, and whether it
// is one that a recording has to see.
//
//   lengths FILE..     says how many instructions there are, and each that differs; ends with 1 if one does
//
// What libcapstone does not know is passed over by the length that lengths.c says.
#include <capstone/capstone.h>
#include <elf.h>
#include <fcntl.h>
#include <stdio.h>
#include <stdlib.h>
#include <string.h>
#include <sys/mman.h>
#include <sys/stat.h>
#include <unistd.h>

#include "../stepper/lengths.h"

static csh capstone;
static cs_insn *decoded;
static unsigned long count, unknown, different;

// By the name that libcapstone gives.
static bool is_watched(const cs_insn *instruction)
{
    static const char *const names[] = {"sfence", "mfence", "clflush", "clflushopt", "clwb", "xbegin"};
    const char *text = strchr(instruction->op_str, '[');
    if (strstr(instruction->mnemonic, "lock ") || (!strcmp(instruction->mnemonic, "xchg") && text))
        return true;
    for (size_t i = 0; i < sizeof names / sizeof *names; i++)
        if (!strcmp(instruction->mnemonic, names[i]))
            return true;
    return false;
}

static size_t compare(const uint8_t *bytes, size_t size, uint64_t address)
{
    const uint8_t *at = bytes;
    size_t left = size;
    uint64_t place = address;
    struct outline outline = outline_of(bytes, size);
    count++;
    if (!cs_disasm_iter(capstone, &at, &left, &place, decoded)) {
        unknown++;
        return outline.length ? outline.length : 1;
    }
    if (outline.length != decoded->size || (is_watched(decoded) && !outline.is_watched)) {
        different++;
        printf("0x%lx: %s %s: %u bytes, and not %u\n", address, decoded->mnemonic, decoded->op_str, outline.length,
               decoded->size);
    }
    return decoded->size;
}

static void compare_section(const uint8_t *file, const Elf64_Shdr *section)
{
    if (!(section->sh_flags & SHF_EXECINSTR) || section->sh_type != SHT_PROGBITS)
        return;
    for (size_t place = 0; place < section->sh_size;)
        place += compare(file + section->sh_offset + place, section->sh_size - place, section->sh_addr + place);
}

static void compare_file(const char *path)
{
    struct stat found;
    int descriptor = open(path, O_RDONLY);
    if (descriptor < 0 || fstat(descriptor, &found)) {
        perror(path);
        exit(2);
    }
    const uint8_t *file = mmap(NULL, (size_t)found.st_size, PROT_READ, MAP_PRIVATE, descriptor, 0);
    const Elf64_Ehdr *header = (const void *)file;
    const Elf64_Shdr *sections = (const void *)(file + header->e_shoff);
    for (int i = 0; i < header->e_shnum; i++)
        compare_section(file, &sections[i]);
    close(descriptor);
}

int main(int words, char **paths)
{
    if (cs_open(CS_ARCH_X86, CS_MODE_64, &capstone) || !(decoded = cs_malloc(capstone)))
        return 2;
    for (int i = 1; i < words; i++)
        compare_file(paths[i]);
    printf("%lu instructions, %lu of them unknown to libcapstone, %lu different\n", count, unknown, different);
    return different > 0;
}

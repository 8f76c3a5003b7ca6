#include "decode.h"

#include <capstone/capstone.h>
#include <cpuid.h>
#include <stddef.h>
#include <stdio.h>
#include <string.h>

#include "code.h"
#include "program.h"

// libcapstone is asked for names, operands and sizes. It is not asked what an instruction writes: it calls many stores
// reads (movups, setne, cmpxchg ..). What writes is said here instead: an instruction writes its first operand, in
// Intel's order, if it is not one of those below. Prefixes, fences and flushes are read from the bytes.

static csh capstone;

void start_decoder(void)
{
    if (cs_open(CS_ARCH_X86, CS_MODE_64, &capstone) || cs_option(capstone, CS_OPT_DETAIL, CS_OPT_ON))
        stop(FAILED, "libcapstone does not start");
}

// ---- names

// Whether a list has a name. A word of it that ends with `*` stands for all names that begin so.
static bool has_name(const char *const *list, const char *name)
{
    for (; *list; list++) {
        size_t length = strcspn(*list, "*");
        if ((*list)[length] == '*' ? !strncmp(*list, name, length) : !strcmp(*list, name))
            return true;
    }
    return false;
}

// These have a first operand in memory, and only read it.
static const char *const readers[] = {"cmp",    "test",    "bt",       "mul",     "imul",       "div",      "idiv",
                                      "push",   "call",    "lcall",    "jmp",     "ljmp",       "nop",      "prefetch*",
                                      "cmpsb",  "cmpsw",   "cmpsd",    "cmpsq",   "ldmxcsr",    "vldmxcsr", "xrstor*",
                                      "lgdt",   "lidt",    "lldt",     "ltr",     "lmsw",       "verr",     "verw",
                                      "invlpg", "ptwrite", "cldemote", "clflush", "clflushopt", "clwb",     NULL};

// Of x87 these store; all others with an operand in memory read it.
static const char *const x87_stores[] = {"fst*", "fist*", "fbstp", "fnst*", "fsave*", "fnsave*", "fxsave*", NULL};

// These store bytes that libcapstone has no right size for, or that depend on more than is looked at here.
static const char *const inexact[] = {"vpmov*",  "vpcompress*", "vcompress*", "fxsave*",     "xsave*",  "fsave*",
                                      "fnsave*", "fstenv*",     "fnstenv*",   "sgdt",        "sidt",    "insb",
                                      "insw",    "insd",        "maskmov*",   "vmaskmovdqu", "movdiri", NULL};

static const char *const nontemporal[] = {"movnt*", "vmovnt*", NULL};
// These store to addresses that are not looked at here.
static const char *const anywhere[] = {"vpscatter*", "vscatter*",  "movdir64b", "enqcmd*",
                                       "clzero",     "tilestored", "int",       NULL};
static const char *const compares[] = {"cmpxchg", "cmpxchg8b", "cmpxchg16b", NULL};

// Masked stores: the size of an element.
static const struct {
    const char *const names[8];
    unsigned size;
} elements[] = {
    {{"vmovdqu8"}, 1},
    {{"vmovdqu16", "vcvtps2ph"}, 2},
    {{"vmovdqu32", "vmovdqa32", "vmovups", "vmovaps", "vmovss", "vextracti32*", "vextractf32*"}, 4},
    {{"vmovdqu64", "vmovdqa64", "vmovupd", "vmovapd", "vmovsd", "vextracti64*", "vextractf64*"}, 8},
    {{"vmaskmovps", "vpmaskmovd"}, 4},
    {{"vmaskmovpd", "vpmaskmovq"}, 8},
};

static unsigned element_size(const char *name)
{
    for (size_t i = 0; i < sizeof elements / sizeof *elements; i++)
        if (has_name(elements[i].names, name))
            return elements[i].size;
    return 0;
}

static bool writes_first(const char *name)
{
    return name[0] == 'f' ? has_name(x87_stores, name) : !has_name(readers, name);
}

// ---- bytes

struct prefixes {
    bool lock, repeat, operand16, address32;
    unsigned length; // of these, and of a REX prefix
};

static struct prefixes read_prefixes(const uint8_t *bytes)
{
    struct prefixes found = {0};
    for (; found.length < LONGEST_INSTRUCTION - 3; found.length++) {
        uint8_t byte = bytes[found.length];
        if (byte == 0xf0)
            found.lock = true;
        else if (byte == 0xf2 || byte == 0xf3)
            found.repeat = true;
        else if (byte == 0x66)
            found.operand16 = true;
        else if (byte == 0x67)
            found.address32 = true;
        else if (byte != 0x2e && byte != 0x36 && byte != 0x3e && byte != 0x26 && byte != 0x64 && byte != 0x65)
            break;
    }
    found.length += (bytes[found.length] & 0xf0) == 0x40;
    return found;
}

static void set_kind(struct instruction *it, enum kind kind, const char *name)
{
    it->kind = kind;
    strcpy(it->name, name);
}

// The instructions of 0f ae that order or flush. A serializing instruction (cpuid, iret) orders too, and is not
// recorded as a fence: fewer fences leave more memories, so none is missed. Nor is a system call, for the same reason.
static void read_fence(struct instruction *it, const struct prefixes *prefixes, uint8_t modrm)
{
    bool is_register = modrm >> 6 == 3;
    unsigned operation = modrm >> 3 & 7;
    if (prefixes->repeat)
        return;
    if (is_register && !prefixes->operand16 && operation >= 6)
        set_kind(it, FENCE, operation == 7 ? "sfence" : "mfence");
    else if (!is_register && operation == 7)
        set_kind(it, FLUSH, prefixes->operand16 ? "clflushopt" : "clflush");
    else if (!is_register && operation == 6 && prefixes->operand16)
        set_kind(it, FLUSH, "clwb");
}

static void read_bytes(struct instruction *it)
{
    struct prefixes prefixes = read_prefixes(it->bytes);
    const uint8_t *opcode = it->bytes + prefixes.length;
    it->is_locked = prefixes.lock;
    // movs and stos
    it->is_repeated = prefixes.repeat && ((opcode[0] & 0xfe) == 0xa4 || (opcode[0] & 0xfe) == 0xaa);
    it->target.narrow = prefixes.address32;
    if (opcode[0] == 0x0f && opcode[1] == 0xae)
        read_fence(it, &prefixes, opcode[2]);
    else if (opcode[0] == 0x0f && opcode[1] == 0x05)
        it->kind = SYSTEM_CALL;
    else if (opcode[0] == 0x9c)
        it->kind = PUSH_FLAGS;
    // EVEX: the lowest three bits of its last byte number the mask register, if they are not 0.
    else if (opcode[0] == 0x62 && opcode[3] & 7)
        it->mask = (struct mask){element_size(it->name), false, opcode[3] & 7};
}

// ---- operands

static bool is_vector(unsigned number)
{
    return number >= X86_REG_XMM0 && number <= X86_REG_ZMM31;
}

static unsigned vector_number(unsigned number)
{
    return number >= X86_REG_ZMM0   ? number - X86_REG_ZMM0
           : number >= X86_REG_YMM0 ? number - X86_REG_YMM0
                                    : number - X86_REG_XMM0;
}

static void set_target(struct instruction *it, const cs_x86_op *operand)
{
    it->target.base = operand->mem.base;
    it->target.index = operand->mem.index;
    it->target.segment = operand->mem.segment;
    it->target.scale = operand->mem.scale;
    it->target.displacement = operand->mem.disp;
    it->target.size = operand->size;
    if (!strcmp(it->name, "fnstsw") || !strcmp(it->name, "fstsw"))
        it->target.size = 2;
}

// The operand in memory that is written, or flushed.
static void read_target(struct instruction *it, const cs_x86 *x86)
{
    const cs_x86_op *first = &x86->operands[0], *second = &x86->operands[1];
    bool is_exchange = !strcmp(it->name, "xchg");
    if (x86->op_count > 0 && first->type == X86_OP_MEM && (it->kind == FLUSH || writes_first(it->name)))
        set_target(it, first);
    else if (x86->op_count > 1 && second->type == X86_OP_MEM && is_exchange)
        set_target(it, second);
    it->is_locked |= is_exchange && it->target.size > 0;
    if (x86->op_count < 2 || it->target.size == 0 || second->type != X86_OP_REG)
        return;
    if (!strcmp(it->name, "bts") || !strcmp(it->name, "btr") || !strcmp(it->name, "btc"))
        it->target.bit = second->reg;
    // The AVX stores with a mask in a vector register.
    if ((!strncmp(it->name, "vmaskmovp", 9) || !strncmp(it->name, "vpmaskmov", 9)) && is_vector(second->reg))
        it->mask = (struct mask){element_size(it->name), true, vector_number(second->reg)};
}

static void read_instruction(struct instruction *it, const cs_insn *decoded)
{
    const char *last = strrchr(decoded->mnemonic, ' ');
    snprintf(it->name, sizeof it->name, "%s", last ? last + 1 : decoded->mnemonic);
    it->length = decoded->size;
    read_bytes(it);
    read_target(it, &decoded->detail->x86);
    bool is_masked = it->mask.number != 0 || it->mask.is_vector;
    it->is_exact = !has_name(inexact, it->name) && (!is_masked || it->mask.element > 0);
    it->is_nontemporal = has_name(nontemporal, it->name);
    it->is_compare = has_name(compares, it->name);
    if (has_name(anywhere, it->name))
        it->kind = UNKNOWN;
    // The masked stores to [rdi] name no operand in memory.
    if (!strncmp(it->name, "maskmov", 7) || !strcmp(it->name, "vmaskmovdqu"))
        it->target = (struct operand){.base = X86_REG_RDI, .scale = 1, .narrow = it->target.narrow, .size = 16};
}

// ---- an instruction

void decode(uint64_t address, struct instruction *instruction)
{
    enum { SLOTS = 1 << 14 };
    static struct instruction slots[SLOTS];
    struct instruction *it = &slots[(address ^ address >> 14) % SLOTS];
    uint8_t bytes[LONGEST_INSTRUCTION] = {0};
    size_t count = read_memory_up_to(address, bytes, sizeof bytes);
    hide_breakpoints(address, bytes, count);
    if (it->address != address || memcmp(it->bytes, bytes, sizeof bytes)) {
        cs_insn *decoded;
        memset(it, 0, sizeof *it);
        it->address = address;
        memcpy(it->bytes, bytes, sizeof bytes);
        if (cs_disasm(capstone, bytes, count, address, 1, &decoded) == 1) {
            read_instruction(it, decoded);
            cs_free(decoded, 1);
        } else {
            it->kind = UNKNOWN;
            it->name[0] = '?';
            for (int i = 0; i < 8; i++)
                snprintf(it->name + 1 + 2 * i, 3, "%02x", bytes[i]);
        }
    }
    *instruction = *it;
}

// ---- addresses

static const struct {
    unsigned names[3]; // of 64, 32 and 16 bits
    size_t place;
} general[] = {
#define PLACE(field) offsetof(struct user_regs_struct, field)
    {{X86_REG_RAX, X86_REG_EAX, X86_REG_AX}, PLACE(rax)},
    {{X86_REG_RBX, X86_REG_EBX, X86_REG_BX}, PLACE(rbx)},
    {{X86_REG_RCX, X86_REG_ECX, X86_REG_CX}, PLACE(rcx)},
    {{X86_REG_RDX, X86_REG_EDX, X86_REG_DX}, PLACE(rdx)},
    {{X86_REG_RSI, X86_REG_ESI, X86_REG_SI}, PLACE(rsi)},
    {{X86_REG_RDI, X86_REG_EDI, X86_REG_DI}, PLACE(rdi)},
    {{X86_REG_RBP, X86_REG_EBP, X86_REG_BP}, PLACE(rbp)},
    {{X86_REG_RSP, X86_REG_ESP, X86_REG_SP}, PLACE(rsp)},
    {{X86_REG_R8, X86_REG_R8D, X86_REG_R8W}, PLACE(r8)},
    {{X86_REG_R9, X86_REG_R9D, X86_REG_R9W}, PLACE(r9)},
    {{X86_REG_R10, X86_REG_R10D, X86_REG_R10W}, PLACE(r10)},
    {{X86_REG_R11, X86_REG_R11D, X86_REG_R11W}, PLACE(r11)},
    {{X86_REG_R12, X86_REG_R12D, X86_REG_R12W}, PLACE(r12)},
    {{X86_REG_R13, X86_REG_R13D, X86_REG_R13W}, PLACE(r13)},
    {{X86_REG_R14, X86_REG_R14D, X86_REG_R14W}, PLACE(r14)},
    {{X86_REG_R15, X86_REG_R15D, X86_REG_R15W}, PLACE(r15)},
#undef PLACE
};

// The value of a general register, with its sign if it has less than 64 bits. 0 for any other.
static int64_t general_value(unsigned name, const struct user_regs_struct *registers)
{
    for (size_t i = 0; i < sizeof general / sizeof *general; i++) {
        uint64_t value = *(const unsigned long long *)((const char *)registers + general[i].place);
        if (name == general[i].names[0])
            return (int64_t)value;
        if (name == general[i].names[1])
            return (int32_t)value;
        if (name == general[i].names[2])
            return (int16_t)value;
    }
    return 0;
}

uint64_t target_address(const struct instruction *it, const struct user_regs_struct *registers)
{
    const struct operand *target = &it->target;
    uint64_t base = target->base == X86_REG_RIP || target->base == X86_REG_EIP
                        ? it->address + it->length
                        : (uint64_t)general_value(target->base, registers);
    uint64_t index = (uint64_t)general_value(target->index, registers) * (uint64_t)target->scale;
    uint64_t address = base + index + (uint64_t)target->displacement;
    // A count of bits names a word of the operand's size.
    if (target->bit)
        address += (uint64_t)((general_value(target->bit, registers) >> 3) & -(int64_t)target->size);
    if (target->narrow)
        address = (uint32_t)address;
    if (target->segment == X86_REG_FS)
        address += registers->fs_base;
    if (target->segment == X86_REG_GS)
        address += registers->gs_base;
    return address;
}

// ---- masks

// Where a component of the extended state stands in the standard format of XSAVE. (cpuid is slow in a virtual machine.)
static unsigned component_place(unsigned component)
{
    static unsigned places[8];
    unsigned size, unused_c, unused_d;
    if (places[component] == 0)
        __get_cpuid_count(0xd, component, &size, &places[component], &unused_c, &unused_d);
    return places[component];
}

uint64_t mask_bits(const struct mask *mask, const uint8_t *xsave)
{
    enum { XMM_PLACE = 160, UPPER_HALVES = 2, MASK_REGISTERS = 5 };
    uint64_t bits = 0;
    if (!mask->is_vector) {
        memcpy(&bits, xsave + component_place(MASK_REGISTERS) + 8 * mask->number, 8);
        return bits;
    }
    uint8_t vector[32];
    memcpy(vector, xsave + XMM_PLACE + 16 * mask->number, 16);
    memcpy(vector + 16, xsave + component_place(UPPER_HALVES) + 16 * mask->number, 16);
    for (unsigned i = 0; i < 32 / mask->element; i++)
        bits |= (uint64_t)(vector[(i + 1) * mask->element - 1] >> 7) << i;
    return bits;
}

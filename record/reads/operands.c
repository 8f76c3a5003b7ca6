#include "operands.h"

#include <capstone/capstone.h>
#include <string.h>

#include "fail.h"

// Of reads, each rule here may take too much and never too little. Of stores, none may take too much: what is counted as
// stored is not read later. So only instructions of these lists are known to store, all of their bytes, and the size is
// told by the register that is stored or by the bytes of the instruction; libcapstone's has to be the same.

static csh capstone;

void start_operands(void)
{
    if (cs_open(CS_ARCH_X86, CS_MODE_64, &capstone) || cs_option(capstone, CS_OPT_DETAIL, CS_OPT_ON))
        fail("libcapstone does not start");
}

enum { BIGGEST_GENERAL = 8, BIGGEST_OPERAND = 64, CACHE_LINE = 64 };

// ---- bytes

struct prefixes {
    bool operand16, wide, repeat;
    size_t length;
};

static struct prefixes read_prefixes(const uint8_t *bytes, size_t count)
{
    struct prefixes found = {0};
    for (; found.length < count; found.length++) {
        uint8_t byte = bytes[found.length];
        if (byte == 0x66)
            found.operand16 = true;
        else if (byte == 0xf2 || byte == 0xf3)
            found.repeat = true;
        else if (byte != 0x67 && byte != 0xf0 && byte != 0x2e && byte != 0x36 && byte != 0x3e && byte != 0x26 && byte != 0x64 &&
                 byte != 0x65)
            break;
    }
    if (found.length < count && (bytes[found.length] & 0xf0) == 0x40) {
        found.wide = bytes[found.length] & 8;
        found.length++;
    }
    return found;
}

// Whether a mask chooses the elements (EVEX with a mask register).
static bool is_masked(const uint8_t *bytes, size_t count, const struct prefixes *prefixes)
{
    size_t at = prefixes->length;
    return at + 3 < count && bytes[at] == 0x62 && (bytes[at + 3] & 7) != 0;
}

// ---- registers

static bool general_register(unsigned name, const struct user_regs_struct *r, uint64_t *value)
{
    const struct {
        unsigned name;
        uint64_t value;
    } all[] = {{X86_REG_INVALID, 0}, {X86_REG_RAX, r->rax}, {X86_REG_RBX, r->rbx}, {X86_REG_RCX, r->rcx}, {X86_REG_RDX, r->rdx},
               {X86_REG_RSI, r->rsi}, {X86_REG_RDI, r->rdi}, {X86_REG_RBP, r->rbp}, {X86_REG_RSP, r->rsp}, {X86_REG_R8, r->r8},
               {X86_REG_R9, r->r9}, {X86_REG_R10, r->r10}, {X86_REG_R11, r->r11}, {X86_REG_R12, r->r12}, {X86_REG_R13, r->r13},
               {X86_REG_R14, r->r14}, {X86_REG_R15, r->r15}};
    for (size_t i = 0; i < sizeof all / sizeof *all; i++)
        if (all[i].name == name) {
            *value = all[i].value;
            return true;
        }
    return false;
}

// The address of an operand in memory. Answers false if it is made of anything but general registers of 64 bits.
static bool address_of(const cs_insn *it, const cs_x86_op *operand, const struct user_regs_struct *r, uint64_t *address)
{
    uint64_t base = 0, index;
    if (it->detail->x86.addr_size != 8)
        return false;
    if (operand->mem.base == X86_REG_RIP)
        base = it->address + it->size;
    else if (!general_register(operand->mem.base, r, &base))
        return false;
    if (!general_register(operand->mem.index, r, &index))
        return false;
    *address = base + index * (uint64_t)operand->mem.scale + (uint64_t)operand->mem.disp;
    if (operand->mem.segment == X86_REG_FS)
        *address += r->fs_base;
    if (operand->mem.segment == X86_REG_GS)
        *address += r->gs_base;
    return true;
}

static unsigned vector_size(unsigned name)
{
    if (name >= X86_REG_XMM0 && name <= X86_REG_XMM31)
        return 16;
    if (name >= X86_REG_YMM0 && name <= X86_REG_YMM31)
        return 32;
    return name >= X86_REG_ZMM0 && name <= X86_REG_ZMM31 ? 64 : 0;
}

static bool is_control(unsigned name)
{
    static const unsigned segments[] = {X86_REG_CS, X86_REG_DS, X86_REG_ES, X86_REG_FS, X86_REG_GS, X86_REG_SS};
    for (size_t i = 0; i < sizeof segments / sizeof *segments; i++)
        if (segments[i] == name)
            return true;
    return (name >= X86_REG_CR0 && name <= X86_REG_CR15) || (name >= X86_REG_DR0 && name <= X86_REG_DR15);
}

// ---- instructions

static bool is_one_of(unsigned id, const unsigned *all, size_t count)
{
    for (size_t i = 0; i < count; i++)
        if (all[i] == id)
            return true;
    return false;
}

#define IS_ONE_OF(id, all) is_one_of(id, all, sizeof(all) / sizeof *(all))

// These read their operand in memory, of the size that libcapstone says, and may store it too. They are of general registers.
static const unsigned general[] = {
    X86_INS_MOV,   X86_INS_MOVZX,  X86_INS_MOVSX,  X86_INS_MOVSXD, X86_INS_MOVBE,  X86_INS_CMP,     X86_INS_TEST,   X86_INS_ADD,
    X86_INS_ADC,   X86_INS_SUB,    X86_INS_SBB,    X86_INS_AND,    X86_INS_OR,     X86_INS_XOR,     X86_INS_INC,    X86_INS_DEC,
    X86_INS_NEG,   X86_INS_NOT,    X86_INS_MUL,    X86_INS_IMUL,   X86_INS_DIV,    X86_INS_IDIV,    X86_INS_SHL,    X86_INS_SAL,
    X86_INS_SHR,   X86_INS_SAR,    X86_INS_ROL,    X86_INS_ROR,    X86_INS_XCHG,   X86_INS_XADD,    X86_INS_CMPXCHG, X86_INS_BSF,
    X86_INS_BSR,   X86_INS_POPCNT, X86_INS_LZCNT,  X86_INS_TZCNT,  X86_INS_CMOVA,  X86_INS_CMOVAE,  X86_INS_CMOVB,  X86_INS_CMOVBE,
    X86_INS_CMOVE, X86_INS_CMOVG,  X86_INS_CMOVGE, X86_INS_CMOVL,  X86_INS_CMOVLE, X86_INS_CMOVNE,  X86_INS_CMOVNO, X86_INS_CMOVNP,
    X86_INS_CMOVNS, X86_INS_CMOVO, X86_INS_CMOVP,  X86_INS_CMOVS,
};

// These store one byte.
static const unsigned conditions[] = {X86_INS_SETA,  X86_INS_SETAE, X86_INS_SETB,  X86_INS_SETBE, X86_INS_SETE,  X86_INS_SETG,
                                      X86_INS_SETGE, X86_INS_SETL,  X86_INS_SETLE, X86_INS_SETNE, X86_INS_SETNO, X86_INS_SETNP,
                                      X86_INS_SETNS, X86_INS_SETO,  X86_INS_SETP,  X86_INS_SETS};

// These load or store an entire vector register, where no mask chooses its elements.
static const unsigned entire[] = {
    X86_INS_MOVUPS,     X86_INS_MOVAPS,     X86_INS_MOVUPD,    X86_INS_MOVAPD,    X86_INS_MOVDQU,    X86_INS_MOVDQA,
    X86_INS_MOVNTDQ,    X86_INS_MOVNTPS,    X86_INS_MOVNTPD,   X86_INS_VMOVUPS,   X86_INS_VMOVAPS,   X86_INS_VMOVUPD,
    X86_INS_VMOVAPD,    X86_INS_VMOVDQU,    X86_INS_VMOVDQA,   X86_INS_VMOVDQU8,  X86_INS_VMOVDQU16, X86_INS_VMOVDQU32,
    X86_INS_VMOVDQU64,  X86_INS_VMOVDQA32,  X86_INS_VMOVDQA64, X86_INS_VMOVNTDQ,  X86_INS_VMOVNTPS,  X86_INS_VMOVNTPD,
    X86_INS_LDDQU,      X86_INS_VLDDQU,
};

// These load or store a part of a vector register, of this size.
static const unsigned parts_of_8[] = {X86_INS_MOVQ,   X86_INS_VMOVQ,   X86_INS_MOVSD,   X86_INS_VMOVSD,  X86_INS_MOVLPS,
                                      X86_INS_MOVLPD, X86_INS_MOVHPS,  X86_INS_MOVHPD,  X86_INS_VMOVLPS, X86_INS_VMOVLPD,
                                      X86_INS_VMOVHPS, X86_INS_VMOVHPD};
static const unsigned parts_of_4[] = {X86_INS_MOVSS, X86_INS_VMOVSS, X86_INS_MOVD, X86_INS_VMOVD};

static const unsigned flushes[] = {X86_INS_CLFLUSH, X86_INS_CLFLUSHOPT, X86_INS_CLWB};

// How many bytes a move of a vector register, or of a part of one, has; 0 if this is not known.
static unsigned vector_move(unsigned id, const cs_x86_op *other)
{
    if (IS_ONE_OF(id, entire))
        return vector_size(other->reg);
    if (IS_ONE_OF(id, parts_of_8))
        return 8;
    return IS_ONE_OF(id, parts_of_4) ? 4 : 0;
}

// How many bytes an instruction stores to its first operand; 0 if it is not known to store them all, and to read none.
static unsigned stored_size(const cs_insn *it, const uint8_t *bytes, const struct prefixes *prefixes)
{
    const cs_x86 *x = &it->detail->x86;
    const cs_x86_op *other = &x->operands[1];
    if (x->op_count == 1)
        return IS_ONE_OF(it->id, conditions) ? 1 : 0;
    if (x->op_count != 2 || is_masked(bytes, it->size, prefixes))
        return 0;
    if (other->type == X86_OP_IMM && it->id == X86_INS_MOV && x->opcode[0] == 0xc6)
        return 1;
    if (other->type == X86_OP_IMM && it->id == X86_INS_MOV && x->opcode[0] == 0xc7)
        return prefixes->wide ? 8 : prefixes->operand16 ? 2 : 4;
    if (other->type != X86_OP_REG)
        return 0;
    if (it->id == X86_INS_MOV || it->id == X86_INS_MOVBE || it->id == X86_INS_MOVNTI)
        return is_control(other->reg) || vector_size(other->reg) ? 0 : other->size;
    return vector_size(other->reg) ? vector_move(it->id, other) : 0;
}

static bool has_vector(const cs_x86 *x)
{
    for (int i = 0; i < x->op_count; i++)
        if (x->operands[i].type == X86_OP_REG && vector_size(x->operands[i].reg))
            return true;
    return false;
}

// How many bytes an instruction reads of an operand that is not its first, or of which it is known that it reads it. 0 if
// this is not known.
static unsigned read_size(const cs_insn *it, int place, unsigned size)
{
    const cs_x86 *x = &it->detail->x86;
    if (IS_ONE_OF(it->id, general) && !has_vector(x))
        return size <= BIGGEST_GENERAL ? size : 0;
    if (place == 0 || !has_vector(x))
        return 0;
    unsigned moved = x->op_count == 2 ? vector_move(it->id, &x->operands[0]) : 0;
    return moved == size ? moved : BIGGEST_OPERAND;
}

// ---- string instructions

// Whether it is movs, cmps, stos, lods or scas, by its opcode.
static bool is_string(const uint8_t *bytes, size_t count, const struct prefixes *prefixes)
{
    uint8_t opcode = prefixes->length < count ? bytes[prefixes->length] : 0;
    return (opcode >= 0xa4 && opcode <= 0xa7) || (opcode >= 0xaa && opcode <= 0xaf);
}

// The bytes of all repetitions, from the one where a pointer is now.
static struct span repeated(uint64_t pointer, uint64_t count, uint64_t size, bool goes_down)
{
    if (goes_down)
        return (struct span){pointer - count * size + size, pointer + size};
    return (struct span){pointer, pointer + count * size};
}

static void find_string(uint8_t opcode, const struct prefixes *prefixes, const struct user_regs_struct *r, struct access *access)
{
    uint64_t size = !(opcode & 1) ? 1 : prefixes->wide ? 8 : prefixes->operand16 ? 2 : 4;
    uint64_t count = prefixes->repeat ? r->rcx : 1;
    bool goes_down = r->eflags & 0x400;
    if (count > (uint64_t)1 << 32)
        return;
    struct span source = repeated(r->rsi, count, size, goes_down), target = repeated(r->rdi, count, size, goes_down);
    uint8_t kind = opcode & 0xfe;
    access->is_known = true;
    if (kind == 0xa4 || kind == 0xac || kind == 0xa6)
        access->reads[access->read_count++] = source;
    if (kind == 0xa6 || kind == 0xae)
        access->reads[access->read_count++] = target;
    // Of the first repetition alone, as it is run alone.
    if ((kind == 0xa4 || kind == 0xaa) && count)
        access->store = (struct span){r->rdi, r->rdi + size};
}

// ---- all

// The place of the only operand in memory, or -1.
static int memory_operand(const cs_x86 *x)
{
    int place = -1;
    for (int i = 0; i < x->op_count; i++)
        if (x->operands[i].type == X86_OP_MEM) {
            if (place >= 0)
                return -1;
            place = i;
        }
    return place;
}

static void find_operand(const cs_insn *it, const uint8_t *bytes, const struct prefixes *prefixes,
                         const struct user_regs_struct *r, struct access *access)
{
    const cs_x86 *x = &it->detail->x86;
    int place = memory_operand(x);
    uint64_t address;
    if (place < 0 || !address_of(it, &x->operands[place], r, &address))
        return;
    unsigned size = x->operands[place].size;
    if (IS_ONE_OF(it->id, flushes)) {
        access->flushed = (struct span){address & -(uint64_t)CACHE_LINE, (address | (CACHE_LINE - 1)) + 1};
        access->is_known = true;
        return;
    }
    unsigned stored = place == 0 ? stored_size(it, bytes, prefixes) : 0;
    unsigned taken = stored ? 0 : read_size(it, place, size);
    access->is_known = stored ? stored == size : taken != 0;
    if (stored && access->is_known)
        access->store = (struct span){address, address + stored};
    if (taken)
        access->reads[access->read_count++] = (struct span){address, address + taken};
}

void find_access(const uint8_t *bytes, size_t count, const struct user_regs_struct *registers, struct access *access)
{
    cs_insn *it;
    memset(access, 0, sizeof *access);
    if (cs_disasm(capstone, bytes, count, registers->rip, 1, &it) != 1)
        return;
    struct prefixes prefixes = read_prefixes(bytes, it->size);
    if (!is_string(bytes, it->size, &prefixes))
        find_operand(it, bytes, &prefixes, registers, access);
    else if (it->detail->x86.addr_size == 8)
        find_string(bytes[prefixes.length], &prefixes, registers, access);
    cs_free(it, 1);
}

bool is_within(const struct span *span, uint64_t address)
{
    return address >= span->start && address < span->end;
}

bool is_meant(const struct access *access, uint64_t address)
{
    if (is_within(&access->store, address) || is_within(&access->flushed, address))
        return true;
    for (int i = 0; i < access->read_count; i++)
        if (is_within(&access->reads[i], address))
            return true;
    return false;
}

#include "lengths.h"

#include <string.h>

#include "decode.h"

// What is behind each opcode, in rows of sixteen:
//   .  nothing            m  a ModRM byte and what belongs to it
//   b  one byte           M  ModRM, one byte
//   z  two or four bytes  Z  ModRM, two or four bytes
//   w  two bytes          e  three bytes
//   j  a jump by a byte   J  a jump by four bytes
//   v  a value of the operand's size, up to eight bytes
//   a  an address         g, G  ModRM, and a value if it is `test`: one byte, or two or four
//   p  it is a prefix     x  another table follows
//   -  not known here
static const char one_byte[] =
    "mmmmbz--mmmmbz-x" "mmmmbz--mmmmbz--" "mmmmbzp-mmmmbzp-" "mmmmbzp-mmmmbzp-"
    "pppppppppppppppp" "................" "--xmppppzZbM...." "jjjjjjjjjjjjjjjj"
    "MZ-Mmmmmmmmmmmmm" "..........-....." "aaaa....bz......" "bbbbbbbbvvvvvvvv"
    "MMw.xxMZe.w..b-." "mmmm---.mmmmmmmm" "jjjjbbbbJJ-j...." "p.pp..gG......mm";

// Behind 0f.
static const char two_bytes[] =
    "mmmm-.....-.-m.-" "mmmmmmmmmmmmmmmm" "mmmm----mmmmmmmm" "......-.x-x-----"
    "mmmmmmmmmmmmmmmm" "mmmmmmmmmmmmmmmm" "mmmmmmmmmmmmmmmm" "MMMMmmm.mm--mmmm"
    "JJJJJJJJJJJJJJJJ" "mmmmmmmmmmmmmmmm" "...mMm--...mMmmm" "mmmmmmmmmmMmmmmm"
    "mmMmMMMm........" "mmmmmmmmmmmmmmmm" "mmmmmmmmmmmmmmmm" "mmmmmmmmmmmmmmmm";

// The numbers of the tables, as VEX and EVEX have them.
enum { ONE_BYTE = 0, AFTER_0F = 1, AFTER_0F_38 = 2, AFTER_0F_3A = 3, HALF_PRECISION_5 = 5, HALF_PRECISION_6 = 6 };

// Where in an instruction one is.
struct reader {
    const uint8_t *bytes;
    size_t count, place;
    bool is_short; // there were too few bytes
};

struct opcode {
    unsigned table;
    uint8_t byte, modrm;
    bool lock, repeat, operand16, address32, wide, is_vector;
};

static uint8_t peek(struct reader *reader)
{
    if (reader->place < reader->count)
        return reader->bytes[reader->place];
    reader->is_short = true;
    return 0;
}

static uint8_t next_byte(struct reader *reader)
{
    uint8_t byte = peek(reader);
    reader->place++;
    return byte;
}

static int64_t next_signed(struct reader *reader, unsigned size)
{
    int8_t narrow = 0;
    int32_t wide = 0;
    reader->place += size;
    if (reader->place > reader->count) {
        reader->is_short = true;
        return 0;
    }
    if (size == sizeof narrow) {
        memcpy(&narrow, reader->bytes + reader->place - size, sizeof narrow);
        return narrow;
    }
    memcpy(&wide, reader->bytes + reader->place - size, sizeof wide);
    return wide;
}

// ---- prefixes and opcodes

static void read_legacy_prefixes(struct reader *reader, struct opcode *opcode)
{
    enum { REX = 0x40, REX_MASK = 0xf0, REX_W = 8 };
    while (one_byte[peek(reader)] == 'p' && (peek(reader) & REX_MASK) != REX && !reader->is_short) {
        uint8_t prefix = next_byte(reader);
        opcode->lock |= prefix == 0xf0;
        opcode->repeat |= prefix == 0xf2 || prefix == 0xf3;
        opcode->operand16 |= prefix == 0x66;
        opcode->address32 |= prefix == 0x67;
    }
    if ((peek(reader) & REX_MASK) == REX)
        opcode->wide = next_byte(reader) & REX_W;
}

// The bytes c4 and c5 (VEX) and 62 (EVEX).
static void read_vector_opcode(struct reader *reader, struct opcode *opcode, uint8_t first)
{
    enum { VEX_TABLE = 0x1f, EVEX_TABLE = 7 };
    opcode->is_vector = true;
    opcode->table = AFTER_0F;
    uint8_t second = next_byte(reader);
    if (first == 0xc4 || first == 0x62)
        opcode->table = second & (first == 0x62 ? EVEX_TABLE : VEX_TABLE);
    if (first == 0xc4)
        next_byte(reader);
    if (first == 0x62)
        reader->place += 2;
    opcode->byte = next_byte(reader);
}

static void read_opcode(struct reader *reader, struct opcode *opcode)
{
    read_legacy_prefixes(reader, opcode);
    uint8_t first = next_byte(reader);
    if (first == 0xc4 || first == 0xc5 || first == 0x62) {
        read_vector_opcode(reader, opcode, first);
        return;
    }
    opcode->byte = first;
    if (first != 0x0f)
        return;
    opcode->table = AFTER_0F;
    opcode->byte = next_byte(reader);
    if (opcode->byte != 0x38 && opcode->byte != 0x3a)
        return;
    opcode->table = opcode->byte == 0x38 ? AFTER_0F_38 : AFTER_0F_3A;
    opcode->byte = next_byte(reader);
}

// The letter of the tables above.
static char form_of(const struct opcode *opcode)
{
    char form;
    switch (opcode->table) {
    case ONE_BYTE:
        return opcode->is_vector ? '-' : one_byte[opcode->byte];
    case AFTER_0F:
        form = two_bytes[opcode->byte];
        if (!opcode->is_vector)
            return form;
        // Of vectors only vzeroupper has no ModRM byte.
        return opcode->byte == 0x77 ? '.' : form == 'M' ? 'M' : 'm';
    case AFTER_0F_38:
        return 'm';
    case AFTER_0F_3A:
        return 'M';
    case HALF_PRECISION_5:
    case HALF_PRECISION_6:
        return opcode->is_vector ? 'm' : '-';
    }
    return '-';
}

// ---- what is behind the opcode

// The ModRM byte, and the scale, the index and the displacement of an operand in memory.
static void read_modrm(struct reader *reader, struct opcode *opcode)
{
    enum { NO_BASE = 5, HAS_INDEX = 4 };
    opcode->modrm = next_byte(reader);
    unsigned mode = opcode->modrm >> 6, base = opcode->modrm & 7;
    if (mode == 3)
        return;
    if (base == HAS_INDEX)
        base = next_byte(reader) & 7;
    if (mode == 1)
        reader->place += 1;
    else if (mode == 2 || base == NO_BASE)
        reader->place += 4;
}

static void read_jump(struct reader *reader, const struct opcode *opcode, unsigned size, struct outline *outline)
{
    int64_t distance = next_signed(reader, size);
    bool is_call = opcode->table == ONE_BYTE && opcode->byte == 0xe8;
    outline->is_branch = true;
    outline->target = (int64_t)reader->place + distance;
    outline->is_end = opcode->table == ONE_BYTE && size > 0 && !is_call && (opcode->byte == 0xe9 || opcode->byte == 0xeb);
}

// Of the instruction `test` a value follows: the first two of the eight that share its opcode.
static unsigned size_of_tested(const struct opcode *opcode, unsigned size)
{
    return (opcode->modrm >> 3 & 7) < 2 ? size : 0;
}

static void read_rest(struct reader *reader, struct opcode *opcode, struct outline *outline)
{
    unsigned value = opcode->operand16 && !opcode->wide ? 2 : 4;
    char form = form_of(opcode);
    if (strchr("mMZgG", form))
        read_modrm(reader, opcode);
    switch (form) {
    case '.':
    case 'm':
        break;
    case 'b':
    case 'M':
        reader->place += 1;
        break;
    case 'w':
        reader->place += 2;
        break;
    case 'e':
        reader->place += 3;
        break;
    case 'z':
    case 'Z':
        reader->place += value;
        break;
    case 'v':
        reader->place += opcode->wide ? 8 : value;
        break;
    case 'a':
        reader->place += opcode->address32 ? 4 : 8;
        break;
    case 'g':
        reader->place += size_of_tested(opcode, 1);
        break;
    case 'G':
        reader->place += size_of_tested(opcode, value);
        break;
    case 'j':
        read_jump(reader, opcode, 1, outline);
        break;
    case 'J':
        read_jump(reader, opcode, 4, outline);
        break;
    default:
        reader->is_short = true;
    }
}

// ---- what it is

// Forms whose length depends on more than is looked at here.
static bool is_odd(const struct opcode *opcode)
{
    bool is_near = opcode->table == ONE_BYTE ? (opcode->byte | 1) == 0xe9
                                             : opcode->table == AFTER_0F && (opcode->byte & 0xf0) == 0x80;
    if (opcode->is_vector)
        return opcode->lock || opcode->repeat || opcode->operand16 || opcode->wide;
    // A near jump of 16 bits: processors differ. extrq and insertq.
    if (opcode->operand16 && !opcode->wide && is_near)
        return true;
    if (opcode->table == AFTER_0F && (opcode->byte | 1) == 0x79)
        return opcode->operand16 || opcode->repeat;
    // XOP.
    return opcode->table == ONE_BYTE && opcode->byte == 0x8f && (opcode->modrm >> 3 & 7) != 0;
}

static bool is_watched(const struct opcode *opcode)
{
    enum { BEGINS_A_TRANSACTION = 0xf8 };
    bool is_memory = opcode->modrm >> 6 != 3;
    if (opcode->lock)
        return true;
    if (opcode->is_vector)
        return false;
    if (opcode->table == ONE_BYTE && (opcode->byte | 1) == 0x87)
        return is_memory; // xchg
    if (opcode->table == ONE_BYTE && opcode->byte == 0xc7)
        return opcode->modrm == BEGINS_A_TRANSACTION;
    // sfence, mfence, clflush, clflushopt, clwb, and a few that are none of these
    return opcode->table == AFTER_0F && opcode->byte == 0xae && (opcode->modrm >> 3 & 7) >= 6;
}

// Whether it is a return, an indirect jump, or one of those that do not end (hlt, ud2).
static bool goes_elsewhere(const struct opcode *opcode)
{
    unsigned operation = opcode->modrm >> 3 & 7;
    if (opcode->table == AFTER_0F)
        return opcode->byte == 0x0b && !opcode->is_vector;
    if (opcode->table != ONE_BYTE)
        return false;
    return opcode->byte == 0xc3 || opcode->byte == 0xc2 || opcode->byte == 0xf4 ||
           (opcode->byte == 0xff && (operation == 4 || operation == 5));
}

struct outline outline_of(const uint8_t *bytes, size_t count)
{
    struct outline outline = {0};
    struct opcode opcode = {0};
    struct reader reader = {bytes, count < LONGEST_INSTRUCTION ? count : LONGEST_INSTRUCTION, 0, false};
    read_opcode(&reader, &opcode);
    if (!reader.is_short)
        read_rest(&reader, &opcode, &outline);
    if (reader.is_short || reader.place > reader.count || is_odd(&opcode))
        return (struct outline){0};
    outline.length = (unsigned)reader.place;
    outline.is_watched = is_watched(&opcode);
    outline.is_end |= goes_elsewhere(&opcode);
    return outline;
}

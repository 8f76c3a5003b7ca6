#include "frames.h"

#include <elf.h>
#include <string.h>

// What the bytes of .eh_frame mean: "DWARF Debugging Information Format", version 5, section 6.4, and "Linux Standard
// Base Core", chapter "Exception Frames".

// ---- reading

struct reader {
    const uint8_t *at, *end;
    uint64_t address; // of what `at` points to
    bool is_bad;
};

static const uint8_t *take(struct reader *reader, uint64_t size)
{
    static const uint8_t zeros[8];
    if (size > (uint64_t)(reader->end - reader->at)) {
        reader->is_bad = true;
        reader->at = reader->end;
        return zeros;
    }
    const uint8_t *taken = reader->at;
    reader->at += size;
    reader->address += size;
    return taken;
}

static uint64_t take_number(struct reader *reader, unsigned size)
{
    uint64_t value = 0;
    memcpy(&value, take(reader, size), size);
    return value;
}

static int64_t take_signed(struct reader *reader, unsigned size)
{
    unsigned unused = 64 - 8 * size;
    return (int64_t)(take_number(reader, size) << unused) >> unused;
}

static uint64_t take_leb(struct reader *reader, bool is_signed)
{
    uint64_t value = 0;
    unsigned shift = 0;
    uint8_t byte;
    do {
        byte = (uint8_t)take_number(reader, 1);
        if (shift < 64)
            value |= (uint64_t)(byte & 0x7f) << shift;
        shift += 7;
    } while (byte & 0x80 && !reader->is_bad);
    if (is_signed && shift < 64 && byte & 0x40)
        value |= -(uint64_t)1 << shift;
    return value;
}

static uint64_t take_unsigned_leb(struct reader *reader)
{
    return take_leb(reader, false);
}

static int64_t take_signed_leb(struct reader *reader)
{
    return (int64_t)take_leb(reader, true);
}

// A pointer: how it is written, and what it counts from. `data` is what 0x30 counts from.
enum { FORMAT = 0x0f, FROM = 0x70, FROM_ITSELF = 0x10, FROM_DATA = 0x30, OMITTED = 0xff };

static uint64_t take_pointer(struct reader *reader, uint8_t encoding, uint64_t data)
{
    uint64_t here = reader->address, value = 0;
    switch (encoding & FORMAT) {
    case 0x0:
    case 0x4:
    case 0xc:
        value = take_number(reader, 8);
        break;
    case 0x2:
        value = take_number(reader, 2);
        break;
    case 0x3:
        value = take_number(reader, 4);
        break;
    case 0xa:
        value = (uint64_t)take_signed(reader, 2);
        break;
    case 0xb:
        value = (uint64_t)take_signed(reader, 4);
        break;
    default:
        reader->is_bad = true;
    }
    if ((encoding & FROM) == FROM_ITSELF)
        return value + here;
    if ((encoding & FROM) == FROM_DATA)
        return value + data;
    reader->is_bad |= (encoding & FROM) != 0;
    return value;
}

static struct reader reader_at(const struct object *object, uint64_t address, uint64_t size)
{
    const uint8_t *bytes = bytes_at(object, address, size);
    return (struct reader){bytes, bytes ? bytes + size : NULL, address, !bytes};
}

// ---- the table of all frames (.eh_frame_hdr)

struct table {
    uint64_t address, count;
    const uint8_t *rows; // pairs of four bytes, counted from the table: a function, and its frame
};
enum { ROW = 8, ENCODED = 4 };

static bool find_table(const struct object *object, struct table *table)
{
    enum { VERSION = 1, ROWS_ARE_PAIRS = 0x3b };
    uint64_t size;
    if (!find_segment(object, PT_GNU_EH_FRAME, &table->address, &size))
        return false;
    struct reader reader = reader_at(object, table->address, size);
    if (reader.is_bad || take_number(&reader, 1) != VERSION)
        return false;
    uint8_t frame = (uint8_t)take_number(&reader, 1), count = (uint8_t)take_number(&reader, 1);
    uint8_t rows = (uint8_t)take_number(&reader, 1);
    take_pointer(&reader, frame, table->address);
    if (reader.is_bad || count == OMITTED || rows != ROWS_ARE_PAIRS)
        return false;
    table->count = take_pointer(&reader, count, table->address);
    table->rows = reader.at;
    return !reader.is_bad && table->count <= (uint64_t)(reader.end - reader.at) / ROW;
}

static uint64_t row_address(const struct table *table, uint64_t row, unsigned column)
{
    int32_t distance;
    memcpy(&distance, table->rows + ROW * row + ENCODED * column, sizeof distance);
    return table->address + (uint64_t)(int64_t)distance;
}

// ---- a function's entry, and what it has in common with others

struct entry {
    uint64_t start, end;
    uint64_t code_unit;
    int64_t data_unit;
    unsigned back; // the register that has the caller's address
    bool is_signal;
    struct reader common, own; // instructions
};

// Reads the head of an entry. `reader` is left with what belongs to it.
static bool read_head(const struct object *object, uint64_t address, struct reader *reader)
{
    enum { LENGTH = 4, LONG_LENGTH = 0xffffffff };
    struct reader head = reader_at(object, address, LENGTH);
    uint64_t length = take_number(&head, LENGTH);
    if (head.is_bad || length == 0 || length == LONG_LENGTH)
        return false;
    *reader = reader_at(object, address + LENGTH, length);
    return !reader->is_bad;
}

// What is behind the letters of the augmentation. Answers how addresses are written.
static uint8_t read_augmentation(struct reader *reader, const char *letters, struct entry *entry)
{
    uint8_t encoding = 0;
    uint64_t size = take_unsigned_leb(reader);
    struct reader data = *reader;
    for (letters++; *letters; letters++)
        if (*letters == 'R')
            encoding = (uint8_t)take_number(&data, 1);
        else if (*letters == 'L')
            take_number(&data, 1);
        else if (*letters == 'P')
            take_pointer(&data, (uint8_t)(take_number(&data, 1) & FORMAT), 0);
        else if (*letters == 'S')
            entry->is_signal = true;
        else
            reader->is_bad = true;
    take(reader, size);
    reader->is_bad |= data.is_bad;
    return encoding;
}

static bool read_common(const struct object *object, uint64_t address, struct entry *entry, uint8_t *encoding)
{
    enum { SIZE_OF_ID = 4, OLD_VERSION = 1 };
    struct reader reader;
    if (!read_head(object, address, &reader) || take_number(&reader, SIZE_OF_ID) != 0)
        return false;
    uint64_t version = take_number(&reader, 1);
    const char *letters = (const char *)reader.at;
    while (take_number(&reader, 1) != 0 && !reader.is_bad)
        ;
    if (reader.is_bad || *letters != 'z')
        return false;
    entry->code_unit = take_unsigned_leb(&reader);
    entry->data_unit = take_signed_leb(&reader);
    entry->back = (unsigned)(version == OLD_VERSION ? take_number(&reader, 1) : take_unsigned_leb(&reader));
    *encoding = read_augmentation(&reader, letters, entry);
    entry->common = reader;
    return !reader.is_bad;
}

static bool read_entry(const struct object *object, uint64_t address, struct entry *entry)
{
    enum { SIZE_OF_ID = 4 };
    struct reader reader;
    uint8_t encoding;
    memset(entry, 0, sizeof *entry);
    if (!read_head(object, address, &reader))
        return false;
    uint64_t here = reader.address, distance = take_number(&reader, SIZE_OF_ID);
    if (distance == 0 || !read_common(object, here - distance, entry, &encoding))
        return false;
    entry->start = take_pointer(&reader, encoding, 0);
    entry->end = entry->start + take_pointer(&reader, encoding & FORMAT, 0);
    take(&reader, take_unsigned_leb(&reader));
    entry->own = reader;
    return !reader.is_bad;
}

void each_frame(const struct object *object, void (*use)(void *context, uint64_t start, uint64_t end), void *context)
{
    struct table table;
    struct entry entry;
    if (!find_table(object, &table))
        return;
    for (uint64_t row = 0; row < table.count; row++)
        if (read_entry(object, row_address(&table, row, 1), &entry) && !entry.is_signal)
            use(context, entry.start, entry.end);
}

// The entry of the function that has this address.
static bool find_entry(const struct object *object, uint64_t address, struct entry *entry)
{
    struct table table;
    if (!find_table(object, &table))
        return false;
    uint64_t low = 0, high = table.count;
    while (low < high) {
        uint64_t middle = (low + high) / 2;
        if (row_address(&table, middle, 0) <= address)
            low = middle + 1;
        else
            high = middle;
    }
    return low > 0 && read_entry(object, row_address(&table, low - 1, 1), entry) && address >= entry->start &&
           address < entry->end;
}

// ---- rules: where the caller's registers are

struct rule {
    enum { SAME, LOST, AT_OFFSET, IS_OFFSET, AT_EXPRESSION, IS_EXPRESSION, IN_REGISTER } kind;
    int64_t number; // an offset from the frame's address, or a register
    struct reader expression;
};

struct rules {
    struct rule frame; // its address: IS_OFFSET of a register, or IS_EXPRESSION
    unsigned frame_register;
    struct rule registers[FRAME_REGISTERS];
};

enum { MOST_REMEMBERED = 8 };
struct machine {
    const struct entry *entry;
    struct rules rules, initial, remembered[MOST_REMEMBERED];
    unsigned depth;
    uint64_t place; // the rules are those from this address on
    bool is_bad;
};

static void set_rule(struct machine *machine, uint64_t number, struct rule rule)
{
    if (number < FRAME_REGISTERS)
        machine->rules.registers[number] = rule;
}

static struct rule offset_rule(const struct machine *machine, int kind, int64_t offset)
{
    return (struct rule){.kind = kind, .number = offset * machine->entry->data_unit};
}

static struct rule expression_rule(struct reader *reader, int kind)
{
    uint64_t size = take_unsigned_leb(reader);
    struct reader expression = *reader;
    take(reader, size);
    expression.end = reader->at;
    return (struct rule){.kind = kind, .expression = expression};
}

static void set_frame(struct machine *machine, uint64_t number, int64_t offset)
{
    machine->rules.frame_register = (unsigned)number;
    machine->rules.frame = (struct rule){.kind = IS_OFFSET, .number = offset};
}

static void remember(struct machine *machine)
{
    if (machine->depth == MOST_REMEMBERED)
        machine->is_bad = true;
    else
        machine->remembered[machine->depth++] = machine->rules;
}

static void restore(struct machine *machine)
{
    if (machine->depth == 0)
        machine->is_bad = true;
    else
        machine->rules = machine->remembered[--machine->depth];
}

// The instructions whose highest two bits are not 0 have an operand in the others.
static void run_short(struct machine *machine, struct reader *reader, unsigned kind, unsigned operand)
{
    enum { ADVANCE = 1, OFFSET = 2 };
    if (kind == ADVANCE)
        machine->place += operand * machine->entry->code_unit;
    else if (kind == OFFSET)
        set_rule(machine, operand, offset_rule(machine, AT_OFFSET, (int64_t)take_unsigned_leb(reader)));
    else if (operand < FRAME_REGISTERS)
        machine->rules.registers[operand] = machine->initial.registers[operand];
}

static void run_long(struct machine *machine, struct reader *reader, unsigned operation)
{
    uint64_t number;
    switch (operation) {
    case 0x00: // nop
        break;
    case 0x02: // advance_loc1, 2 and 4
    case 0x03:
    case 0x04:
        machine->place += take_number(reader, 1u << (operation - 0x02)) * machine->entry->code_unit;
        break;
    case 0x05: // offset_extended
        number = take_unsigned_leb(reader);
        set_rule(machine, number, offset_rule(machine, AT_OFFSET, (int64_t)take_unsigned_leb(reader)));
        break;
    case 0x06: // restore_extended
        number = take_unsigned_leb(reader);
        if (number < FRAME_REGISTERS)
            machine->rules.registers[number] = machine->initial.registers[number];
        break;
    case 0x07: // undefined
        set_rule(machine, take_unsigned_leb(reader), (struct rule){.kind = LOST});
        break;
    case 0x08: // same_value
        set_rule(machine, take_unsigned_leb(reader), (struct rule){.kind = SAME});
        break;
    case 0x09: // register
        number = take_unsigned_leb(reader);
        set_rule(machine, number, (struct rule){.kind = IN_REGISTER, .number = (int64_t)take_unsigned_leb(reader)});
        break;
    case 0x0a:
        remember(machine);
        break;
    case 0x0b:
        restore(machine);
        break;
    case 0x0c: // def_cfa
        number = take_unsigned_leb(reader);
        set_frame(machine, number, (int64_t)take_unsigned_leb(reader));
        break;
    case 0x0d: // def_cfa_register
        machine->rules.frame_register = (unsigned)take_unsigned_leb(reader);
        break;
    case 0x0e: // def_cfa_offset
        machine->rules.frame.number = (int64_t)take_unsigned_leb(reader);
        break;
    case 0x0f: // def_cfa_expression
        machine->rules.frame = expression_rule(reader, IS_EXPRESSION);
        break;
    case 0x10: // expression
        number = take_unsigned_leb(reader);
        set_rule(machine, number, expression_rule(reader, AT_EXPRESSION));
        break;
    case 0x11: // offset_extended_sf
        number = take_unsigned_leb(reader);
        set_rule(machine, number, offset_rule(machine, AT_OFFSET, take_signed_leb(reader)));
        break;
    case 0x12: // def_cfa_sf
        number = take_unsigned_leb(reader);
        set_frame(machine, number, take_signed_leb(reader) * machine->entry->data_unit);
        break;
    case 0x13: // def_cfa_offset_sf
        machine->rules.frame.number = take_signed_leb(reader) * machine->entry->data_unit;
        break;
    case 0x16: // val_expression
        number = take_unsigned_leb(reader);
        set_rule(machine, number, expression_rule(reader, IS_EXPRESSION));
        break;
    case 0x2e: // GNU_args_size
        take_unsigned_leb(reader);
        break;
    default:
        machine->is_bad = true;
    }
}

// Runs instructions up to those that hold from behind `address` on.
static void run_rules(struct machine *machine, struct reader reader, uint64_t address)
{
    enum { OPERAND_BITS = 6 };
    while (reader.at < reader.end && !machine->is_bad) {
        uint8_t byte = (uint8_t)take_number(&reader, 1);
        if (byte >> OPERAND_BITS)
            run_short(machine, &reader, byte >> OPERAND_BITS, byte & 0x3f);
        else
            run_long(machine, &reader, byte);
        machine->is_bad |= reader.is_bad;
        if (machine->place > address)
            return;
    }
}

// ---- expressions

struct stack {
    uint64_t values[16];
    unsigned depth;
    bool is_bad;
};

static void push(struct stack *stack, uint64_t value)
{
    if (stack->depth == sizeof stack->values / sizeof *stack->values)
        stack->is_bad = true;
    else
        stack->values[stack->depth++] = value;
}

static uint64_t pop(struct stack *stack)
{
    if (stack->depth > 0)
        return stack->values[--stack->depth];
    stack->is_bad = true;
    return 0;
}

static uint64_t word_at(struct stack *stack, uint64_t address)
{
    uint64_t value = 0;
    if (!read_memory(address, &value, sizeof value))
        stack->is_bad = true;
    return value;
}

// The operations that the code of Linux has: of procedure linkage tables, and of the frames of signals.
static void run_operation(struct stack *stack, struct reader *reader, const struct frame *frame, uint8_t operation)
{
    enum { LITERAL = 0x30, REGISTER = 0x70, LITERALS = 32 };
    uint64_t top;
    if (operation >= LITERAL && operation < LITERAL + LITERALS) {
        push(stack, operation - LITERAL);
        return;
    }
    if (operation >= REGISTER && operation < REGISTER + FRAME_REGISTERS) {
        push(stack, frame->values[operation - REGISTER] + (uint64_t)take_signed_leb(reader));
        return;
    }
    switch (operation) {
    case 0x06: // deref
        push(stack, word_at(stack, pop(stack)));
        break;
    case 0x08: // const1u
        push(stack, take_number(reader, 1));
        break;
    case 0x1a: // and
        top = pop(stack);
        push(stack, pop(stack) & top);
        break;
    case 0x22: // plus
        top = pop(stack);
        push(stack, pop(stack) + top);
        break;
    case 0x23: // plus_uconst
        push(stack, pop(stack) + take_unsigned_leb(reader));
        break;
    case 0x24: // shl
        top = pop(stack);
        push(stack, top < 64 ? pop(stack) << top : 0);
        break;
    case 0x2a: // ge
        top = pop(stack);
        push(stack, (int64_t)pop(stack) >= (int64_t)top);
        break;
    default:
        stack->is_bad = true;
    }
}

static bool evaluate(struct reader reader, const struct frame *frame, const uint64_t *first, uint64_t *value)
{
    struct stack stack = {0};
    if (first)
        push(&stack, *first);
    while (reader.at < reader.end && !stack.is_bad && !reader.is_bad)
        run_operation(&stack, &reader, frame, (uint8_t)take_number(&reader, 1));
    *value = pop(&stack);
    return !stack.is_bad && !reader.is_bad;
}

// ---- the caller

static bool find_rules(const struct object *object, uint64_t address, struct rules *rules, struct entry *entry)
{
    struct machine machine = {0};
    if (!find_entry(object, address, entry))
        return false;
    machine.entry = entry;
    machine.place = entry->start;
    run_rules(&machine, entry->common, UINT64_MAX);
    machine.initial = machine.rules;
    run_rules(&machine, entry->own, address);
    *rules = machine.rules;
    return !machine.is_bad && entry->back == FRAME_BACK;
}

static bool is_known(const struct frame *frame, uint64_t number)
{
    return number < FRAME_REGISTERS && frame->known >> number & 1;
}

// The caller's value of a register. False if it is lost.
static bool apply_rule(const struct rule *rule, const struct frame *frame, uint64_t address, unsigned number,
                       uint64_t *value)
{
    uint64_t place = 0;
    switch (rule->kind) {
    case SAME:
        *value = frame->values[number];
        return is_known(frame, number);
    case LOST:
        return false;
    case IN_REGISTER:
        if (!is_known(frame, (uint64_t)rule->number))
            return false;
        *value = frame->values[rule->number];
        return true;
    case IS_OFFSET:
        *value = address + (uint64_t)rule->number;
        return true;
    case IS_EXPRESSION:
        return evaluate(rule->expression, frame, &address, value);
    case AT_OFFSET:
        place = address + (uint64_t)rule->number;
        break;
    case AT_EXPRESSION:
        if (!evaluate(rule->expression, frame, &address, &place))
            return false;
    }
    return read_memory(place, value, sizeof *value);
}

static bool frame_address(const struct rules *rules, const struct frame *frame, uint64_t *address)
{
    if (rules->frame.kind == IS_EXPRESSION)
        return evaluate(rules->frame.expression, frame, NULL, address);
    if (rules->frame.kind != IS_OFFSET || !is_known(frame, rules->frame_register))
        return false;
    *address = frame->values[rules->frame_register] + (uint64_t)rules->frame.number;
    return true;
}

bool next_frame(const struct object *object, struct frame *frame)
{
    struct rules rules;
    struct entry entry;
    struct frame caller = {0};
    uint64_t address, place = frame->values[FRAME_BACK];
    // A call returns to what is behind it, which may be another function.
    uint64_t inside = frame->is_signal ? place : place - 1;
    if (!find_rules(object, inside - object->bias, &rules, &entry) || !frame_address(&rules, frame, &address))
        return false;
    for (unsigned i = 0; i < FRAME_REGISTERS; i++)
        if (apply_rule(&rules.registers[i], frame, address, i, &caller.values[i]))
            caller.known |= 1u << i;
    // The stack pointer of a caller is the frame's address, if nothing else is said.
    if (rules.registers[FRAME_STACK].kind == SAME) {
        caller.values[FRAME_STACK] = address;
        caller.known |= 1u << FRAME_STACK;
    }
    bool is_said = rules.registers[FRAME_BACK].kind != SAME && is_known(&caller, FRAME_BACK);
    caller.is_signal = entry.is_signal;
    *frame = caller;
    return is_said;
}

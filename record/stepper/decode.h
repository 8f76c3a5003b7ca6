// What an instruction does to memory, as far as a recording asks for it.
#ifndef PX86_DECODE_H
#define PX86_DECODE_H

#include <stdbool.h>
#include <stdint.h>
#include <sys/user.h>

enum { LONGEST_INSTRUCTION = 15 };

enum kind {
    OTHER,       // stores what its target says, if it has one
    FENCE,       // name is sfence or mfence
    FLUSH,       // name is clflush, clflushopt or clwb, of the target's line
    SYSTEM_CALL,
    PUSH_FLAGS,
    UNKNOWN,     // may store anything anywhere
};

// A memory operand. Registers are numbered as libcapstone does; 0 is none.
struct operand {
    unsigned base, index, segment;
    int scale;
    int64_t displacement;
    bool narrow;   // an address of 32 bits
    unsigned size; // in bytes; 0 if there is no operand
    unsigned bit;  // a register that counts bits from there on (bts, btr, btc), or 0
};

// Which elements of a vector are stored.
struct mask {
    unsigned element; // its size in bytes; 0 if there is no mask
    bool is_vector;   // the highest bit of each element of a vector register (AVX), or else a mask register (AVX-512)
    unsigned number;  // of this register
};

struct instruction {
    uint64_t address;
    unsigned length;
    uint8_t bytes[LONGEST_INSTRUCTION];
    char name[32]; // without prefixes; if it cannot be decoded, `?` and its first bytes
    enum kind kind;
    struct operand target; // what it stores to
    struct mask mask;
    bool is_exact;         // it stores all bytes of the target, or those of the mask
    bool is_locked;
    bool is_repeated;      // a string instruction that rcx counts
    bool is_nontemporal;
    bool is_compare;       // cmpxchg and its kin store only if ZF is set
};

void start_decoder(void);
// The instruction at this address. Its bytes are read each time, so it may be changed by the program.
void decode(uint64_t address, struct instruction *instruction);
uint64_t target_address(const struct instruction *instruction, const struct user_regs_struct *registers);
// The bits of the mask, of the first element the lowest. `xsave` is what XSAVE saves of the registers, in standard form.
uint64_t mask_bits(const struct mask *mask, const uint8_t *xsave);

#endif

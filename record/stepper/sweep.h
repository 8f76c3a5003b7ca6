// Which instructions a piece of code has, and which of them a recording has to see.
#ifndef PX86_SWEEP_H
#define PX86_SWEEP_H

#include <stdbool.h>
#include <stddef.h>
#include <stdint.h>

enum { PAGE = 4096 };

// What is known of a byte of code.
enum mark {
    START = 1,   // an instruction begins here
    INSIDE = 2,  // one that begins before goes on here
    WATCHED = 4, // the one that begins here is to be seen
    TRIED = 8,   // whatever begins here is not
};

struct sweep {
    const uint8_t *bytes;
    size_t size;
    uint8_t *marks;    // of each byte
    bool *is_doubtful; // of each page, and of the last one, if it is not whole
    size_t *targets;   // places that are to be looked at yet
    size_t target_count, target_room;
};

void begin_sweep(struct sweep *sweep, const uint8_t *bytes, size_t size);
// These bytes are instructions, one behind the other, the last of which ends where the bytes end.
void sweep_function(struct sweep *sweep, size_t start, size_t end);
// An instruction may begin here: something has this address. It may be data.
void sweep_from(struct sweep *sweep, size_t place);
// No byte is known.
void doubt_all(struct sweep *sweep);
// Follows the jumps and calls of what was found.
void follow_targets(struct sweep *sweep);
// Looks at each of these bytes that is still unknown: a page is doubtful if an instruction that is to be seen might
// begin there.
void sweep_rest(struct sweep *sweep, size_t start, size_t end);
// Pages of which no byte was looked at are doubtful.
void doubt_unread_pages(struct sweep *sweep);
bool has_doubts(const struct sweep *sweep);
void free_sweep(struct sweep *sweep);

#endif

#include "sweep.h"

#include <stdlib.h>

#include "decode.h"
#include "lengths.h"
#include "program.h"

// Code has no mark where an instruction begins. So first come the functions whose beginning and end their file tells:
// from end to end they have one instruction behind the other, or they are in doubt. Then what these jump to and call.
// What is left is filling between functions, data, or code that nothing names. There each byte is tried as a beginning.
// If none may be a fence, a flush or a locked operation, it does not matter what it is; otherwise the page is in doubt.

void begin_sweep(struct sweep *sweep, const uint8_t *bytes, size_t size)
{
    *sweep = (struct sweep){.bytes = bytes, .size = size};
    sweep->marks = calloc(size, sizeof *sweep->marks);
    sweep->is_doubtful = calloc(size / PAGE + 1, sizeof *sweep->is_doubtful);
    if (!sweep->marks || !sweep->is_doubtful)
        stop(FAILED, "out of memory");
}

void free_sweep(struct sweep *sweep)
{
    free(sweep->marks);
    free(sweep->is_doubtful);
    free(sweep->targets);
    *sweep = (struct sweep){0};
}

static struct outline look_at(const struct sweep *sweep, size_t place)
{
    return outline_of(sweep->bytes + place, sweep->size - place);
}

// The pages that have these bytes are in doubt.
static void doubt_bytes(struct sweep *sweep, size_t start, size_t end)
{
    for (size_t page = start / PAGE; page * PAGE < end && page * PAGE < sweep->size; page++)
        sweep->is_doubtful[page] = true;
}

static void add_target(struct sweep *sweep, size_t place, const struct outline *outline)
{
    uint64_t target = place + (uint64_t)outline->target;
    if (!outline->is_branch || target >= sweep->size || sweep->marks[target] & START)
        return;
    if (sweep->target_count == sweep->target_room) {
        sweep->target_room = 2 * sweep->target_room + 64;
        sweep->targets = realloc(sweep->targets, sweep->target_room * sizeof *sweep->targets);
        if (!sweep->targets)
            stop(FAILED, "out of memory");
    }
    sweep->targets[sweep->target_count++] = target;
}

// Marks an instruction. Where two of them overlap, and one is to be seen, no breakpoint is right: then it is in doubt.
static void mark_instruction(struct sweep *sweep, size_t place, const struct outline *outline)
{
    bool overlaps = sweep->marks[place] & INSIDE, is_watched = outline->is_watched;
    sweep->marks[place] |= START | (is_watched ? WATCHED : 0);
    for (size_t i = place + 1; i < place + outline->length; i++) {
        overlaps |= sweep->marks[i] & START;
        is_watched |= sweep->marks[i] & WATCHED;
        sweep->marks[i] |= INSIDE;
    }
    if (overlaps && is_watched)
        doubt_bytes(sweep, place < LONGEST_INSTRUCTION ? 0 : place - LONGEST_INSTRUCTION, place + outline->length);
    add_target(sweep, place, outline);
}

void doubt_all(struct sweep *sweep)
{
    doubt_bytes(sweep, 0, sweep->size);
}

void sweep_function(struct sweep *sweep, size_t start, size_t end)
{
    if (start >= end || end > sweep->size)
        return;
    for (size_t place = start; place < end;) {
        if (sweep->marks[place] & START) {
            place++;
            while (place < end && sweep->marks[place] == INSIDE)
                place++;
            continue;
        }
        struct outline outline = look_at(sweep, place);
        if (outline.length == 0 || outline.length > end - place) {
            doubt_bytes(sweep, start, end);
            return;
        }
        mark_instruction(sweep, place, &outline);
        place += outline.length;
    }
}

// Whether the bytes from here on, up to what is known already or does not go on, are instructions of which none is to
// be seen.
static bool is_harmless(const struct sweep *sweep, size_t place)
{
    while (place < sweep->size && !(sweep->marks[place] & (START | INSIDE))) {
        struct outline outline = look_at(sweep, place);
        if (outline.length == 0 || outline.is_watched)
            return false;
        if (outline.is_end)
            return true;
        place += outline.length;
    }
    return place < sweep->size && sweep->marks[place] & START;
}

// From a target on, up to what is known already, or to what does not go on.
static void follow(struct sweep *sweep, size_t place)
{
    while (place < sweep->size && !(sweep->marks[place] & START)) {
        struct outline outline = look_at(sweep, place);
        if (outline.length == 0) {
            doubt_bytes(sweep, place, place + 1);
            return;
        }
        mark_instruction(sweep, place, &outline);
        if (outline.is_end)
            return;
        place += outline.length;
    }
}

// What is no code, and gets a breakpoint, would be data that is changed. So only what needs none is taken for code.
void sweep_from(struct sweep *sweep, size_t place)
{
    if (place < sweep->size && is_harmless(sweep, place))
        follow(sweep, place);
}

void follow_targets(struct sweep *sweep)
{
    while (sweep->target_count > 0)
        follow(sweep, sweep->targets[--sweep->target_count]);
}

void doubt_unread_pages(struct sweep *sweep)
{
    for (size_t page = 0; page < sweep->size; page += PAGE) {
        size_t place = page;
        while (place < page + PAGE && place < sweep->size && !sweep->marks[place])
            place++;
        if (place == page + PAGE || place == sweep->size)
            sweep->is_doubtful[page / PAGE] = true;
    }
}

bool has_doubts(const struct sweep *sweep)
{
    for (size_t page = 0; page * PAGE < sweep->size; page++)
        if (sweep->is_doubtful[page])
            return true;
    return false;
}

void sweep_rest(struct sweep *sweep, size_t start, size_t end)
{
    for (size_t place = start; place < end && place < sweep->size; place++) {
        if (sweep->marks[place] & (START | INSIDE))
            continue;
        sweep->marks[place] |= TRIED;
        if (look_at(sweep, place).is_watched)
            doubt_bytes(sweep, place, place + 1);
    }
}

#include "schedule.h"

#include <stdio.h>
#include <stdlib.h>
#include <string.h>

#include "log.h"
#include "options.h"
#include "program.h"

// A turn at which the order is not that of itself.
struct change {
    uint64_t turn;
    int thread;
};
static struct change *changes;
static size_t change_count;
static uint64_t turns;
static int last_number = -1; // of the thread that ran

// By random priorities: the thread of the highest runs. At each of some turns that of the thread that runs becomes the lowest.
static bool is_random;
static uint64_t seed, lowering_count, turns_expected;
static int64_t *priorities; // by the thread's number
static size_t priority_count;
static int64_t lowest;

uint64_t random_of(uint64_t of_seed, uint64_t place)
{
    // splitmix64
    uint64_t it = of_seed + (place + 1) * 0x9e3779b97f4a7c15;
    it = (it ^ it >> 30) * 0xbf58476d1ce4e5b9;
    it = (it ^ it >> 27) * 0x94d049bb133111eb;
    return it ^ it >> 31;
}

static void add_change(uint64_t turn, int thread)
{
    changes = realloc(changes, (change_count + 1) * sizeof *changes);
    if (!changes)
        stop(FAILED, "out of memory");
    if (change_count > 0 && changes[change_count - 1].turn >= turn)
        stop(FAILED, "--schedule: the turns do not ascend at %lu:%d", turn, thread);
    changes[change_count++] = (struct change){turn, thread};
}

void read_schedule(const char *words)
{
    uint64_t turn;
    int thread, length, end = 0;
    is_random =
        sscanf(words, "random:%lu:%lu:%lu%n", &seed, &lowering_count, &turns_expected, &end) == 3 && !words[end];
    if (is_random)
        return;
    for (; *words; words += length) {
        length = 0;
        if (sscanf(words, " %lu:%d %n", &turn, &thread, &length) != 2 || length == 0)
            stop(FAILED, "--schedule: %s is neither TURN:THREAD .. nor random:SEED:CHANGES:TURNS", words);
        add_change(turn, thread);
    }
}

// ---- by priorities

// That of a thread is random, and higher than any that was lowered.
static int64_t *priority_of(int number)
{
    while (priority_count <= (size_t)number) {
        priorities = realloc(priorities, (priority_count + 1) * sizeof *priorities);
        if (!priorities)
            stop(FAILED, "out of memory");
        priorities[priority_count] = (int64_t)(random_of(seed, priority_count) >> 1);
        priority_count++;
    }
    return &priorities[number];
}

static bool is_lowered_at(uint64_t turn)
{
    enum { PLACE_OF_CHANGES = 1 << 20 };
    for (uint64_t i = 0; i < lowering_count; i++)
        if (random_of(seed, PLACE_OF_CHANGES + i) % (turns_expected + 1) == turn)
            return true;
    return false;
}

static struct thread *choose_by_priority(struct thread *const *able, size_t count, bool can_go_on)
{
    struct thread *best = able[0];
    // A thread that hands over has the others go first.
    if (last_number >= 0 && (!can_go_on || is_lowered_at(turns)))
        *priority_of(last_number) = --lowest;
    for (size_t i = 1; i < count; i++)
        if (*priority_of(able[i]->number) > *priority_of(best->number))
            best = able[i];
    return best;
}

// ---- by turns

// The thread that goes on, or the one whose number is next.
static struct thread *next_by_itself(struct thread *const *able, size_t count, const struct thread *last,
                                     bool can_go_on)
{
    for (size_t i = 0; i < count; i++)
        if (can_go_on ? able[i] == last : able[i]->number > last_number)
            return able[i];
    return able[0];
}

static struct thread *find_number(struct thread *const *able, size_t count, int number)
{
    for (size_t i = 0; i < count; i++)
        if (able[i]->number == number)
            return able[i];
    stop(NOT_PLAYED, "--schedule: at turn %lu thread %d cannot run: the program did not do the same as before", turns,
         number);
}

static struct thread *choose_by_turn(struct thread *const *able, size_t count, const struct thread *last,
                                     bool can_go_on)
{
    for (size_t i = 0; i < change_count; i++)
        if (changes[i].turn == turns)
            return find_number(able, count, changes[i].thread);
    return next_by_itself(able, count, last, can_go_on);
}

struct thread *choose_by_schedule(struct thread *const *able, size_t count, const struct thread *last, bool can_go_on)
{
    struct thread *by_itself = next_by_itself(able, count, last, can_go_on), *chosen = by_itself;
    if (count > 1) {
        chosen = is_random ? choose_by_priority(able, count, can_go_on) : choose_by_turn(able, count, last, can_go_on);
        log_turn(last, chosen, by_itself, able, count, can_go_on);
        turns++;
    }
    last_number = chosen->number;
    return chosen;
}

#include "turns.h"

#include <stdlib.h>
#include <sys/syscall.h>

#include "log.h"
#include "options.h"
#include "program.h"
#include "schedule.h"
#include "steps.h"
#include "threads.h"

// How many points a thread may pass without a store to the region, how often it may go on without a point, and how often
// threads may hand over in a row where none passes a point.
enum { MOST_IDLE_POINTS = 100, MOST_BETWEEN_POINTS = 10000, MOST_HANDED_OVER = 2000 };
static struct thread **able; // the threads that can run, in the order of their numbers
static size_t able_count;
static size_t handed_over;
static size_t went_on; // without a choice

static void find_able(const struct thread *without)
{
    size_t count;
    struct thread *const *all = all_threads(&count);
    able = realloc(able, (count + 1) * sizeof *able);
    if (!able)
        stop(FAILED, "out of memory");
    able_count = 0;
    for (size_t i = 0; i < count; i++)
        if (all[i]->state == STOPPED && all[i] != without)
            able[able_count++] = all[i];
}

// ---- threads that wait for each other

// Whether a thread is asleep until another one of the program wakes it.
static bool waits_for_others(const struct thread *thread)
{
    enum { OPERATION = 127, WAIT = 0, WAIT_BITSET = 9 };
    const struct user_regs_struct *before = &thread->registers;
    int operation = (int)before->rsi & OPERATION;
    return thread->has_begun && thread->instruction.kind == SYSTEM_CALL && before->rax == SYS_futex &&
           (operation == WAIT || operation == WAIT_BITSET) && before->r10 == 0;
}

// No thread can run. If each waits for another one, the recording ends here.
static bool end_deadlock(void)
{
    size_t count, waiting = 0;
    struct thread *const *all = all_threads(&count);
    for (size_t i = 0; i < count; i++)
        waiting += waits_for_others(all[i]);
    if (count == 0 || waiting < count)
        return false;
    for (size_t i = 0; i < count; i++)
        log_event(all[i], "waits", "");
    end_here(all[0]);
    return true;
}

// Threads hand over in a row, and none does anything else.
static void end_endless(void)
{
    size_t count;
    struct thread *const *all = all_threads(&count);
    if (handed_over <= MOST_HANDED_OVER || count < 2 || able_count + 1 < count)
        return;
    for (size_t i = 0; i < count; i++) {
        look_at_instruction(all[i]);
        log_event(all[i], "spins", "");
    }
    end_here(all[0]);
}

// ---- by random turns

// A number that the seed and the number of numbers before it say.
static uint64_t random_number(void)
{
    static uint64_t place;
    return random_of(options.seed, place++);
}

static struct thread *choose_at_random(void)
{
    find_able(NULL);
    return able_count > 0 ? able[able_count == 1 ? 0 : random_number() % able_count] : NULL;
}

static void run_at_random(void)
{
    pid_t current = 0;
    uint64_t left = 0;
    while (is_recording()) {
        struct thread *thread = find_thread(current);
        if (!thread || thread->state != STOPPED || left == 0 || thread->hands_over) {
            settle();
            thread = find_thread(current);
            if (!thread || thread->state != STOPPED || left == 0 || thread->hands_over) {
                thread = choose_at_random();
                left = 1 + random_number() % options.quantum;
            }
        }
        if (!is_recording())
            return;
        if (!thread && end_deadlock())
            return;
        if (!thread) {
            wait_any();
            continue;
        }
        current = thread->id;
        thread->hands_over = false;
        unsigned taken = take_turn(thread);
        left -= taken < left ? taken : left;
    }
}

// ---- by a schedule

// Where the thread that ran goes on, or another one. NULL if none can.
static struct thread *choose(struct thread *last)
{
    bool can_run = last && last->state == STOPPED;
    bool can_go_on = can_run && !last->hands_over;
    find_able(can_run && last->hands_over ? last : NULL);
    handed_over = can_go_on ? 0 : handed_over + (can_run && last->hands_over);
    if (can_run && last->hands_over) {
        end_endless();
        if (!is_recording())
            return NULL;
    }
    if (able_count == 0 && can_run)
        able[able_count++] = last;
    return able_count > 0 ? choose_by_schedule(able, able_count, last, can_go_on) : NULL;
}

// A thread that passes many points and stores nothing waits in a loop.
static void count_point(struct thread *thread)
{
    if (++thread->idle_points < MOST_IDLE_POINTS)
        return;
    thread->idle_points = 0;
    thread->hands_over = true;
}

// Whether the thread that ran goes on, and nobody is asked: no other one may have its turn here.
static bool goes_on(struct thread *thread)
{
    return thread && thread->state == STOPPED && !thread->hands_over && !is_at_point(thread);
}

// The thread that goes on, or that has its turn. NULL if each waits for another one, and the recording has ended; or if one
// sleeps, and a report of it has come.
static struct thread *next_thread(pid_t current)
{
    struct thread *thread = find_thread(current);
    if (goes_on(thread))
        return thread;
    settle();
    thread = find_thread(current);
    if (!is_recording() || goes_on(thread))
        return is_recording() ? thread : NULL;
    thread = choose(thread);
    if (!is_recording() || (!thread && end_deadlock()))
        return NULL;
    if (!thread) {
        wait_any();
        return NULL;
    }
    thread->hands_over = false;
    if (is_at_point(thread))
        count_point(thread);
    thread->has_turn = true;
    return thread;
}

static void run_by_schedule(void)
{
    pid_t current = 0;
    while (is_recording()) {
        struct thread *thread = next_thread(current);
        if (!thread)
            continue;
        went_on = thread->id == current && !thread->has_turn ? went_on + 1 : 0;
        thread->hands_over |= went_on == MOST_BETWEEN_POINTS;
        current = thread->id;
        take_turn(thread);
    }
}

void run_in_turns(void)
{
    if (options.schedule)
        run_by_schedule();
    else
        run_at_random();
}

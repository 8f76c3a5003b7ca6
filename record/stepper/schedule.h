// In which order the threads run, where --schedule says it. A turn is a choice between threads that can run: forced, where
// the thread that ran could go on, and free, where it waits, has ended, or hands over. Turns are numbered from 0.
#ifndef PX86_SCHEDULE_H
#define PX86_SCHEDULE_H

#include <stdbool.h>
#include <stddef.h>

#include "threads.h"

// The words of --schedule: `TURN:THREAD ..`, where another thread is chosen than the one that goes on, or that comes next; or
// `random:SEED:CHANGES:TURNS`, by random priorities, which change so often in so many turns.
void read_schedule(const char *words);
// A number of a series that the seed and the place in it say.
uint64_t random_of(uint64_t seed, uint64_t place);

// The thread that has its turn, of some that can run, in the order of their numbers. `last` is the one that ran before, if it
// is still there, and `can_go_on` says whether it may go on. Notes the turn.
struct thread *choose_by_schedule(struct thread *const *able, size_t count, const struct thread *last, bool can_go_on);

#endif

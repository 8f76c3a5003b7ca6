/* examples/stack.litmus, and stack-flushed-once.litmus with -DONCE: two processors push a node each onto one stack; with -DTHREE a
   third does too. */
#ifdef THREE
#define CPUS 3
#else
#define CPUS 2
#endif
#define WORDS (1 + 2 * CPUS)
#define LINES (1 + CPUS)
#define LINE(w) (((w) + 1) / 2)
#define P (6 * CPUS)
/* Words: the top, and of each node its item and the next one. Nodes have the addresses 1 and on. */
#define TOP 0
#define ITEM(node) (2 * (node) - 1)
#define NEXT(node) (2 * (node))
#define STARTS(node) (persisted[TOP] != (node) || (persisted[ITEM(node)] == 4 + (node) && \
    (persisted[NEXT(node)] == coherent[NEXT(node)] || coherent[NEXT(node)] == 0)))
/* Where a crash leaves the address of a node on top, it leaves the node, with its link where it has one. */
#ifdef THREE
#define HOLDS (STARTS(1) && STARTS(2) && STARTS(3))
#else
#define HOLDS (STARTS(1) && STARTS(2))
#endif
#include "machine.h"

proctype Pushes(byte p) {
    byte found;
    byte n;
    bool done;
    delay(p, W, ITEM(p + 1), 5 + p);
#ifdef ONCE
    delay(p, FO, p + 1, 0);
#endif
    do
    :: !done ->
        load(p, TOP, found);
        delay(p, W, NEXT(p + 1), found);
#ifndef ONCE
        delay(p, FO, p + 1, 0);
#endif
        compare_exchange(p, TOP, found, p + 1, done)
    :: else -> break
    od
}

init {
    atomic {
        run Pushes(0);
        run Pushes(1);
        run Drains(0);
        run Drains(1);
#ifdef THREE
        run Pushes(2);
        run Drains(2);
#endif
        run Persists()
    }
}

/* examples/every-run/journal.litmus, and journal-unfenced.litmus with -DUNFENCED: two processors append an entry each, under a lock. */
#define CPUS 2
#define WORDS 4
#define LINES 4
#define LINE(w) (w)
#define P 16
/* Words: the lock; the tail, here the number of entries; the entries. */
#define LOCK 0
#define TAIL 1
#define ENTRY(n) (2 + (n))
/* Recovery reads the entries below the tail. */
#define HOLDS ((persisted[TAIL] < 1 || persisted[ENTRY(0)] != 0) && (persisted[TAIL] < 2 || persisted[ENTRY(1)] != 0))
#include "machine.h"

proctype Appends(byte p; byte item) {
    byte found;
    byte n;
    bool done;
    do
    :: !done -> found = 0; compare_exchange(p, LOCK, found, 1, done)
    :: else -> break
    od;
    load(p, TAIL, found);
    delay(p, W, ENTRY(found), item);
    delay(p, FO, LINE(ENTRY(found)), 0);
#ifndef UNFENCED
    delay(p, SF, 0, 0);
#endif
    delay(p, W, TAIL, found + 1);
    delay(p, FO, LINE(TAIL), 0);
    delay(p, SF, 0, 0);
    delay(p, W, LOCK, 0)
}

init {
    atomic {
        run Appends(0, 5);
        run Appends(1, 7);
        run Drains(0);
        run Drains(1);
        run Persists()
    }
}

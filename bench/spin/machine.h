/* The machine of docs/MODEL.md for Spin, as far as these programs need it: store buffers whose entries leave by the table of kept
   order, one pending list, persisting and settling. A model that reads this says first

     CPUS, WORDS, LINES     how many processors, words and cache lines
     LINE(w)                the line of word w
     P                      how many entries the pending list has at most (an assertion fails where one more would be needed)
     HOLDS                  the condition on persisted[], of what a crash may leave

   Values are small numbers: 0 for null, and 1 and on for addresses. What a crash leaves now is persisted[]; each step that changes
   it asserts the condition. So every image of every state is asked, as each is persisted in some state. */

/* How many entries a store buffer has at most. */
#define B 7

#define W 1   /* a write: a word and a value */
#define FO 2  /* an optimized flush, clflushopt or clwb: a line */
#define SF 3  /* a store fence */

typedef Entries { byte kind[B]; byte at[B]; byte value[B]; byte count }

Entries buffer[CPUS];

/* The pending list; FO is a marker there. */
byte pending_kind[P];
byte pending_at[P];
byte pending_value[P];
byte pending;

byte persisted[WORDS];

/* The newest pending write of each word, or what is persisted: told apart already by these. */
byte coherent[WORDS];

/* An entry goes to the end of a store buffer. */
inline delay(p, what, where, much) {
    d_step {
        assert(buffer[p].count < B);
        buffer[p].kind[buffer[p].count] = what;
        buffer[p].at[buffer[p].count] = where;
        buffer[p].value[buffer[p].count] = much;
        buffer[p].count++
    }
}

/* A load: the newest buffered write of the word, or the coherent value. */
inline load(p, w, x) {
    d_step {
        x = coherent[w];
        n = 0;
        do
        :: n < buffer[p].count && buffer[p].kind[n] == W && buffer[p].at[n] == w -> x = buffer[p].value[n]; n++
        :: n < buffer[p].count && !(buffer[p].kind[n] == W && buffer[p].at[n] == w) -> n++
        :: n == buffer[p].count -> break
        od;
        n = 0
    }
}

inline arrive(what, where, much) {
    assert(pending < P);
    pending_kind[pending] = what;
    pending_at[pending] = where;
    pending_value[pending] = much;
    pending++
}

/* lock cmpxchg: x is what the word is compared with, and its value where that fails; it waits for an empty store buffer. */
inline compare_exchange(p, w, x, new, done) {
    d_step {
        buffer[p].count == 0 ->
        if
        :: coherent[w] == x -> arrive(W, w, new); coherent[w] = new; done = 1
        :: else -> x = coherent[w]; done = 0
        fi
    }
}

/* Whether the table keeps the order of an entry and a later one. */
#define KEPT(p, j, i) (buffer[p].kind[j] == SF || buffer[p].kind[i] == SF || (buffer[p].kind[j] == W && buffer[p].kind[i] == W) || \
    (buffer[p].kind[j] == W && buffer[p].kind[i] == FO && LINE(buffer[p].at[j]) == buffer[p].at[i]))
#define PASSES1(p, i) (!KEPT(p, 0, i))
#define PASSES2(p, i) (PASSES1(p, i) && !KEPT(p, 1, i))
#define PASSES3(p, i) (PASSES2(p, i) && !KEPT(p, 2, i))
#define PASSES4(p, i) (PASSES3(p, i) && !KEPT(p, 3, i))
#define PASSES5(p, i) (PASSES4(p, i) && !KEPT(p, 4, i))
#define PASSES6(p, i) (PASSES5(p, i) && !KEPT(p, 5, i))

/* An entry leaves a store buffer; what is behind the others is 0, so that equal states are one. */
inline leave(p, i) {
    if
    :: buffer[p].kind[i] == SF -> skip
    :: buffer[p].kind[i] == W -> arrive(W, buffer[p].at[i], buffer[p].value[i]); coherent[buffer[p].at[i]] = buffer[p].value[i]
    :: buffer[p].kind[i] == FO -> arrive(FO, buffer[p].at[i], 0)
    fi;
    n = i;
    do
    :: n + 1 < buffer[p].count ->
        buffer[p].kind[n] = buffer[p].kind[n + 1];
        buffer[p].at[n] = buffer[p].at[n + 1];
        buffer[p].value[n] = buffer[p].value[n + 1];
        n++
    :: else -> break
    od;
    buffer[p].kind[n] = 0;
    buffer[p].at[n] = 0;
    buffer[p].value[n] = 0;
    buffer[p].count--;
    n = 0
}

/* The store buffer of a processor. */
proctype Drains(byte p) {
    byte n;
end:
    do
    :: d_step { buffer[p].count > 0 -> leave(p, 0) }
    :: d_step { buffer[p].count > 1 && PASSES1(p, 1) -> leave(p, 1) }
    :: d_step { buffer[p].count > 2 && PASSES2(p, 2) -> leave(p, 2) }
    :: d_step { buffer[p].count > 3 && PASSES3(p, 3) -> leave(p, 3) }
    :: d_step { buffer[p].count > 4 && PASSES4(p, 4) -> leave(p, 4) }
    :: d_step { buffer[p].count > 5 && PASSES5(p, 5) -> leave(p, 5) }
    :: d_step { buffer[p].count > 6 && PASSES6(p, 6) -> leave(p, 6) }
    od
}

/* The entry at a place of the pending list is gone. */
inline gone(i) {
    n = i;
    do
    :: n + 1 < pending ->
        pending_kind[n] = pending_kind[n + 1];
        pending_at[n] = pending_at[n + 1];
        pending_value[n] = pending_value[n + 1];
        n++
    :: else -> break
    od;
    pending_kind[n] = 0;
    pending_at[n] = 0;
    pending_value[n] = 0;
    pending--;
    n = 0
}

/* The memory: the oldest write of a line persists where no marker is before it; the oldest marker settles where no write of its line
   is before it. So a write may persist where all before it are writes of other lines, and a marker may settle where all before it
   are. */
proctype Persists() {
    byte i;
    byte k;
    byte n;
    bool free;
end:
    do
    :: pending > 0 ->
        atomic {
            i = 0;
            /* Chooses a place. */
            do
            :: i + 1 < pending -> i++
            :: break
            od;
            skip;
            d_step {
                free = true;
                k = 0;
                do
                :: k < i ->
                    if
                    :: pending_kind[k] == FO -> free = false
                    :: pending_kind[k] == W && pending_kind[i] == W && LINE(pending_at[k]) == LINE(pending_at[i]) -> free = false
                    :: pending_kind[k] == W && pending_kind[i] == FO && LINE(pending_at[k]) == pending_at[i] -> free = false
                    :: else -> skip
                    fi;
                    k++
                :: else -> break
                od;
                k = 0
            }
            if
            :: !free -> i = 0; free = false
            :: free ->
                d_step {
                    if
                    :: pending_kind[i] == W -> persisted[pending_at[i]] = pending_value[i]; assert(HOLDS)
                    :: else -> skip
                    fi;
                    gone(i);
                    i = 0;
                    free = false
                }
            fi
        }
    od
}

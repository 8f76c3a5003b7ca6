// A log of segments, of which each has room for some records. Two threads append under one lock. What a thread has appended it counts.
//
//   segments run FILE      each thread appends 7 records
//   segments check FILE    whether as many records of each thread can be reached as it has counted
//
// Right: a new segment is linked, and that is durable, before the lock is given back.
// Wrong (-DWRONG): it is linked behind the unlock. The thread itself counts its record behind that. But the other one may append to the
// new segment before, and count that: one forced switch, between the unlock and the fence behind the link. Where a thread waits for the
// lock it has its turn too late: so most other switches make a recording that was made before.
#include <pthread.h>

#include "pool.h"

enum { SEGMENTS = 6, ROOM = 3, APPENDS = 7, THREADS = 2 };

struct segment {
    uint64_t records[ROOM];       // the number of the thread that has appended it, from 1
    _Alignas(LINE) uint64_t next; // the number of the next segment, from 1
};

struct pool {
    struct segment segments[SEGMENTS];
    struct {
        _Alignas(LINE) uint64_t count;
    } done[THREADS];
};

static struct pool *pool;
static pthread_mutex_t lock = PTHREAD_MUTEX_INITIALIZER;
static int last, used; // the segment to which is appended, and how many records it has

static void make_durable(uint64_t *word, uint64_t value)
{
    *word = value;
    flush(word, sizeof *word);
    fence();
}

static void append(uint64_t thread)
{
    pthread_mutex_lock(&lock);
    int before = last;
    bool is_full = used == ROOM;
    if (is_full) {
        last++;
        used = 0;
    }
    make_durable(&pool->segments[last].records[used++], thread + 1);
#ifndef WRONG
    if (is_full)
        make_durable(&pool->segments[before].next, (uint64_t)before + 1);
#endif
    pthread_mutex_unlock(&lock);
#ifdef WRONG
    if (is_full)
        make_durable(&pool->segments[before].next, (uint64_t)before + 1); // behind the unlock
#endif
    make_durable(&pool->done[thread].count, pool->done[thread].count + 1);
}

static void *append_all(void *thread)
{
    for (int i = 0; i < APPENDS; i++)
        append((uint64_t)thread);
    return NULL;
}

static int check(void)
{
    uint64_t found[THREADS] = {0};
    int number = 0;
    do {
        for (int i = 0; i < ROOM; i++) {
            uint64_t thread = pool->segments[number].records[i];
            if (thread)
                found[thread - 1]++;
        }
        number = (int)pool->segments[number].next;
    } while (number);
    for (int thread = 0; thread < THREADS; thread++)
        if (found[thread] < pool->done[thread].count) {
            printf("of thread %d %lu records are counted, and %lu can be reached\n", thread, pool->done[thread].count,
                   found[thread]);
            return 1;
        }
    return 0;
}

int main(int count, char **words)
{
    if (count < 3)
        return 2;
    pool = map_pool(words[2], sizeof *pool);
    if (is_command(count, words, "check"))
        return check();
    pthread_t threads[THREADS];
    for (uint64_t i = 0; i < THREADS; i++)
        pthread_create(&threads[i], NULL, append_all, (void *)i);
    for (int i = 0; i < THREADS; i++)
        pthread_join(threads[i], NULL);
    return 0;
}

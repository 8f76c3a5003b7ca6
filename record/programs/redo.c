// A redo log: counters that are always equal.
//
//   redo init FILE      makes the file
//   redo run FILE       adds one to all counters
//   redo check FILE     does again what was logged, and says whether the counters are equal
//
// Right: the log is made durable before `apply` says that it counts.
// Wrong (-DWRONG): what is flushed is the variable that points to the log, and not the log. So `apply` may persist without it.
#include "pool.h"

enum { COUNTERS = 8 };

struct entry {
    uint64_t place, value;
};

struct redo {
    uint64_t apply, count;
    struct entry entries[COUNTERS];
};

struct pool {
    struct redo redo;
    _Alignas(LINE) uint64_t counters[COUNTERS];
};

static void persist(const void *start, size_t size)
{
    flush(start, size);
    fence();
}

static void apply(struct pool *pool)
{
    for (uint64_t i = 0; i < pool->redo.count; i++)
        pool->counters[pool->redo.entries[i].place] = pool->redo.entries[i].value;
    persist(pool->counters, sizeof pool->counters);
    pool->redo.apply = 0;
    persist(&pool->redo.apply, sizeof pool->redo.apply);
}

__attribute__((noinline)) static void add_one(struct pool *pool)
{
    struct redo *redo = &pool->redo;
    for (uint64_t i = 0; i < COUNTERS; i++)
        redo->entries[i] = (struct entry){i, pool->counters[i] + 1};
    redo->count = COUNTERS;
#ifdef WRONG
    persist(&redo, sizeof *redo);
#else
    persist(redo, sizeof *redo);
#endif
    redo->apply = 1;
    persist(&redo->apply, sizeof redo->apply);
    apply(pool);
}

static int check(struct pool *pool)
{
    if (pool->redo.apply)
        apply(pool);
    for (int i = 1; i < COUNTERS; i++)
        if (pool->counters[i] != pool->counters[0]) {
            printf("counter %d is %lu, and the first %lu\n", i, pool->counters[i], pool->counters[0]);
            return 1;
        }
    return 0;
}

int main(int count, char **words)
{
    if (count != 3)
        return 2;
    struct pool *pool = map_pool(words[2], sizeof *pool);
    if (is_command(count, words, "run"))
        add_one(pool);
    return is_command(count, words, "check") ? check(pool) : 0;
}

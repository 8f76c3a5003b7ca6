// Two threads that take locks. Each adds 1 to both sums, which are durable when the locks are given back.
//
//   locks run FILE      two locks of pthread
//   locks spin FILE     one lock, a word of the file, for which a thread waits in a loop
//   locks check FILE    always good
//
// Right: both threads take the locks in the same order.
// Wrong (-DWRONG): the second one takes the other lock first. If it has its turn when the first has one lock, both wait.
#include <pthread.h>
#include <stdatomic.h>

#include "pool.h"

struct pool {
    uint64_t sums[2];
    _Alignas(LINE) _Atomic uint64_t lock;
};

static struct pool *pool;
static pthread_mutex_t locks[2] = {PTHREAD_MUTEX_INITIALIZER, PTHREAD_MUTEX_INITIALIZER};

static void add(int number)
{
    pool->sums[number]++;
    flush(&pool->sums[number], sizeof pool->sums[number]);
    fence();
}

static void *first(void *unused)
{
    pthread_mutex_lock(&locks[0]);
    add(0);
    pthread_mutex_lock(&locks[1]); // the first thread waits
    add(1);
    pthread_mutex_unlock(&locks[1]);
    pthread_mutex_unlock(&locks[0]);
    return unused;
}

static void *second(void *unused)
{
#ifdef WRONG
    pthread_mutex_lock(&locks[1]);
    add(1);
    pthread_mutex_lock(&locks[0]); // the second thread waits
    add(0);
    pthread_mutex_unlock(&locks[0]);
    pthread_mutex_unlock(&locks[1]);
    return unused;
#else
    return first(unused);
#endif
}

static void *spin(void *unused)
{
    while (atomic_exchange(&pool->lock, 1))
        ;
    add(0);
    add(1);
    atomic_store_explicit(&pool->lock, 0, memory_order_release);
    return unused;
}

int main(int count, char **words)
{
    if (count < 3)
        return 2;
    pool = map_pool(words[2], sizeof *pool);
    if (is_command(count, words, "check"))
        return 0;
    bool spins = is_command(count, words, "spin");
    pthread_t threads[2];
    pthread_create(&threads[0], NULL, spins ? spin : first, NULL);
    pthread_create(&threads[1], NULL, spins ? spin : second, NULL);
    for (int i = 0; i < 2; i++)
        pthread_join(threads[i], NULL); // the main thread waits
    return 0;
}

// A queue of two threads: the first puts items in, and the second takes one out. An item that is 0 is none.
//
//   queue run FILE      the second thread takes the third item, if this is the last that is there
//   queue offer FILE    the first thread puts some items in, offers one more, and takes it back if it still can; the second
//                       takes the offer, if there is one
//   queue check FILE    whether no item was taken that is not in the queue, and no offer was both taken and taken back
//
// Right: an item is durable before the lock is given back. An offer is taken by a compare and exchange.
// Wrong (-DWRONG): of `run`, the lock is given back first. A crash may lose the item that was taken, if the second thread had
// its turn between the two: one forced switch, at the flush or the fence of the third item. Of `offer`, it is taken by a load
// and a store. It may be taken back between these, if the second thread had its turn behind the offer, and the first one
// again before the store: two forced switches, and one is not enough.
#include <pthread.h>
#include <stdatomic.h>

#include "pool.h"

enum { ITEMS = 40, TAKES = 3, FEW = 3 };
enum { NO_OFFER, OFFERED, TAKEN, TAKEN_BACK };

struct pool {
    uint64_t taken; // the number of the item, from 1
    _Alignas(LINE) _Atomic uint64_t offer;
    _Alignas(LINE) uint64_t was_taken_back;
    struct {
        _Alignas(LINE) uint64_t value;
    } items[ITEMS];
};

static struct pool *pool;
static pthread_mutex_t lock = PTHREAD_MUTEX_INITIALIZER;

static void make_durable(const volatile void *word)
{
    flush(word, sizeof(uint64_t));
    fence();
}

static void put(int number)
{
    pthread_mutex_lock(&lock);
    pool->items[number].value = 100 + number;
#ifdef WRONG
    pthread_mutex_unlock(&lock);
    make_durable(&pool->items[number]);
#else
    make_durable(&pool->items[number]);
    pthread_mutex_unlock(&lock);
#endif
}

static void *put_all(void *unused)
{
    for (int number = 0; number < ITEMS; number++)
        put(number);
    return unused;
}

static void *take(void *unused)
{
    pthread_mutex_lock(&lock);
    if (pool->items[TAKES - 1].value && !pool->items[TAKES].value) {
        pool->taken = TAKES;
        make_durable(&pool->taken);
    }
    pthread_mutex_unlock(&lock);
    return unused;
}

static void *offer(void *unused)
{
    uint64_t offered = OFFERED;
    for (int number = 0; number < FEW; number++)
        put(number);
    atomic_store_explicit(&pool->offer, OFFERED, memory_order_release);
    make_durable(&pool->offer);
    if (atomic_compare_exchange_strong(&pool->offer, &offered, TAKEN_BACK)) {
        pool->was_taken_back = 1;
        make_durable(&pool->was_taken_back);
    }
    return unused;
}

static void *take_offer(void *unused)
{
#ifdef WRONG
    if (atomic_load_explicit(&pool->offer, memory_order_acquire) == OFFERED)
        atomic_store_explicit(&pool->offer, TAKEN, memory_order_release);
#else
    uint64_t offered = OFFERED;
    atomic_compare_exchange_strong(&pool->offer, &offered, TAKEN);
#endif
    make_durable(&pool->offer);
    return unused;
}

static int check(void)
{
    if (pool->taken && !pool->items[pool->taken - 1].value) {
        puts("an item was taken that is not there");
        return 1;
    }
    if (pool->offer == TAKEN && pool->was_taken_back) {
        puts("an offer was taken, and taken back");
        return 1;
    }
    return 0;
}

static int run(void *(*first)(void *), void *(*second)(void *))
{
    pthread_t threads[2];
    pthread_create(&threads[0], NULL, first, NULL);
    pthread_create(&threads[1], NULL, second, NULL);
    for (int i = 0; i < 2; i++)
        pthread_join(threads[i], NULL);
    return 0;
}

int main(int count, char **words)
{
    if (count < 3)
        return 2;
    pool = map_pool(words[2], sizeof *pool);
    if (is_command(count, words, "run"))
        return run(put_all, take);
    if (is_command(count, words, "offer"))
        return run(offer, take_offer);
    return is_command(count, words, "check") ? check() : 2;
}

// Stores x and flushes it without a fence, exchanges y, and stores z. Each is on a line of its own.
//
//   exchange run FILE          runs
//   exchange run FILE more     then stores 64 more words, on eight lines, so that a crash may leave too many memories to list
//
// Right: the exchange is locked, and waits for the flush. So z is never there without x.
// Wrong (-DWRONG): y is stored as the others are, and nothing waits.
#include "pool.h"

struct pool {
    uint64_t x;
    _Alignas(LINE) uint64_t y;
    _Alignas(LINE) uint64_t z;
    _Alignas(LINE) uint64_t words[64];
};

int main(int count, char **words)
{
    if (!is_command(count, words, "run"))
        return 2;
    volatile struct pool *pool = map_pool(words[2], sizeof *pool);
    pool->x = 1;
    flush(&pool->x, sizeof pool->x);
#ifdef WRONG
    pool->y = 1;
#else
    __atomic_exchange_n(&pool->y, 1, __ATOMIC_SEQ_CST);
#endif
    pool->z = 1;
    for (int i = 0; count > 3 && i < 64; i++)
        pool->words[i] = 1;
    return 0;
}

// Large records, each copied by memcpy.
//
//   copy run FILE SIZE      appends two records of SIZE bytes, a multiple of 8
//   copy check FILE SIZE    whether each record that is counted is whole, and each that was acknowledged is there
//
// Right: a record is flushed and fenced before it is counted.
// Wrong (-DWRONG): the fence is missing, so a record may be counted before all of it persists.
#include "pool.h"

enum { PAGE = 4096, RECORDS = 2 };

struct pool {
    uint64_t count;
    _Alignas(PAGE) char records[];
};

// The word of a record at a place.
static uint64_t word_at(uint64_t number, size_t place)
{
    return (number + 1) * 1000003 + place;
}

__attribute__((noinline)) static void append(struct pool *pool, const uint64_t *record, size_t size)
{
    char *to = pool->records + pool->count * size;
    memcpy(to, record, size);
    flush(to, size);
#ifndef WRONG
    fence();
#endif
    pool->count = pool->count + 1;
    flush(&pool->count, sizeof pool->count);
    fence();
}

static void run(struct pool *pool, size_t size)
{
    uint64_t *record = malloc(size);
    for (uint64_t number = 0; number < RECORDS; number++) {
        for (size_t place = 0; place < size / 8; place++)
            record[place] = word_at(number, place);
        append(pool, record, size);
        PX86_ACK(number + 1);
    }
    free(record);
}

static int check(const struct pool *pool, size_t size)
{
    if (pool->count < acknowledged()) {
        printf("%lu records were acknowledged, %lu are there\n", acknowledged(), pool->count);
        return 1;
    }
    for (uint64_t number = 0; number < pool->count; number++) {
        const uint64_t *record = (const uint64_t *)(pool->records + number * size);
        for (size_t place = 0; place < size / 8; place++)
            if (record[place] != word_at(number, place)) {
                printf("record %lu is torn\n", number);
                return 1;
            }
    }
    return 0;
}

int main(int count, char **words)
{
    size_t size = count > 3 ? strtoul(words[3], NULL, 10) : PAGE;
    if (is_command(count, words, "run")) {
        run(map_pool(words[2], sizeof(struct pool) + RECORDS * size), size);
        return 0;
    }
    if (is_command(count, words, "check"))
        return check(map_pool(words[2], sizeof(struct pool) + RECORDS * size), size);
    return 2;
}

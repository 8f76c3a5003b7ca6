// A hash table with open addressing, of which an entry is within a cache line.
//
//   table run FILE N     inserts the keys 1 to N
//   table check FILE     whether each entry has its value, and what is counted, or was acknowledged, is there
//
// Right: the value is stored before the key, and both are flushed and fenced before they are counted.
// Wrong (-DWRONG): of the key 9 the key is stored before the value.
#include "pool.h"

enum { SLOTS = 4096, ODD = 9 };

struct entry {
    uint64_t value, key;
};

struct pool {
    uint64_t count;
    _Alignas(LINE) struct entry entries[SLOTS];
};

static uint64_t value_of(uint64_t key)
{
    return key * 7 + 1;
}

static size_t place_of(const struct pool *pool, uint64_t key)
{
    size_t place = key * 0x9e3779b97f4a7c15 >> 52;
    while (pool->entries[place].key)
        place = (place + 1) % SLOTS;
    return place;
}

static void insert(struct pool *pool, uint64_t key)
{
    volatile struct entry *entry = &pool->entries[place_of(pool, key)];
#ifdef WRONG
    if (key == ODD)
        entry->key = key;
#endif
    entry->value = value_of(key);
    entry->key = key;
    flush(entry, sizeof *entry);
    fence();
    pool->count = pool->count + 1;
    flush(&pool->count, sizeof pool->count);
    fence();
}

static int check(const struct pool *pool)
{
    uint64_t found = 0;
    for (size_t place = 0; place < SLOTS; place++) {
        const struct entry *entry = &pool->entries[place];
        if (entry->key && entry->value != value_of(entry->key)) {
            printf("the key %lu has the value %lu\n", entry->key, entry->value);
            return 1;
        }
        found += entry->key != 0;
    }
    if (found >= pool->count && pool->count >= acknowledged())
        return 0;
    printf("%lu were acknowledged, %lu are counted, %lu are there\n", acknowledged(), pool->count, found);
    return 1;
}

int main(int count, char **words)
{
    if (is_command(count, words, "run") && count > 3) {
        struct pool *pool = map_pool(words[2], sizeof *pool);
        uint64_t keys = strtoul(words[3], NULL, 10);
        for (uint64_t key = 1; key <= keys; key++) {
            insert(pool, key);
            PX86_ACK(key);
        }
        return 0;
    }
    if (is_command(count, words, "check"))
        return check(map_pool(words[2], sizeof(struct pool)));
    return 2;
}

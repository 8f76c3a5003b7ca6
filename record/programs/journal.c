// Two files: a pool of two accounts that is mapped, and FILE.log, to which the old amounts are written before they are changed.
//
//   journal init FILE     100 and 0
//   journal run FILE      moves 30
//   journal check FILE    takes back what the log has, if that is whole, and then the sum is to be 100; what was acknowledged is done
//
// Right: fdatasync of the log before the pool is changed.
// Wrong (-DWRONG): it is missing.
#include "pool.h"

struct pool {
    uint64_t first;
    _Alignas(LINE) uint64_t second;
};

struct record {
    uint64_t first, second, sum;
};

static uint64_t sum_of(const struct record *record)
{
    return record->first + 3 * record->second + 0x6a6f75726e616c;
}

static int open_log(const char *path)
{
    char name[4096];
    snprintf(name, sizeof name, "%s.log", path);
    int file = open(name, O_RDWR | O_CREAT, 0666);
    if (file < 0)
        give_up(name);
    return file;
}

static void run(struct pool *pool, int file)
{
    struct record record = {pool->first, pool->second, 0};
    record.sum = sum_of(&record);
    if (write(file, &record, sizeof record) != sizeof record)
        give_up("write");
#ifndef WRONG
    if (fdatasync(file))
        give_up("fdatasync");
#endif
    pool->first -= 30; // the first amount
    pool->second += 30;
    if (msync(pool, sizeof *pool, MS_SYNC) || ftruncate(file, 0) || fsync(file))
        give_up("msync");
    PX86_ACK(1);
}

static int check(struct pool *pool, int file)
{
    struct record record;
    if (pread(file, &record, sizeof record, 0) == sizeof record && record.sum == sum_of(&record)) {
        pool->first = record.first;
        pool->second = record.second;
    }
    if (pool->first + pool->second == 100 && (!acknowledged() || pool->second == 30))
        return 0;
    printf("%lu and %lu, acknowledged %lu\n", pool->first, pool->second, acknowledged());
    return 1;
}

int main(int count, char **words)
{
    if (count < 3)
        return 2;
    struct pool *pool = map_pool(words[2], sizeof *pool);
    if (is_command(count, words, "init"))
        pool->first = 100;
    else if (is_command(count, words, "check"))
        return check(pool, open_log(words[2]));
    else
        run(pool, open_log(words[2]));
    return 0;
}

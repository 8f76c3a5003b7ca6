// A file that grows: each record has a page of its own at the end, and the head of the file says how many there are.
//
//   grow run FILE [remap]     adds three records; with `remap` the mapping is moved each time, and otherwise it is longer than the file
//   grow check FILE           whether the file has each record that its head counts
//
// Wrong form: the head is stored before the record and the new size are durable.
#define _GNU_SOURCE
#include "pool.h"

enum { PAGE = 4096, RECORDS = 3, ROOM = (RECORDS + 1) * PAGE };

static uint64_t *record_of(char *pool, uint64_t number)
{
    return (uint64_t *)(pool + (number + 1) * PAGE);
}

static void synchronize(void *start)
{
    if (msync(start, PAGE, MS_SYNC))
        give_up("msync");
}

static void add_record(int file, char **pool, int moves)
{
    uint64_t number = *(uint64_t *)*pool;
    size_t size = (number + 2) * PAGE;
    if (ftruncate(file, (off_t)size))
        give_up("ftruncate");
    if (moves)
        *pool = mremap(*pool, size - PAGE, size, MREMAP_MAYMOVE);
    uint64_t *record = record_of(*pool, number);
    record[0] = 100 + number;
    record[1] = 200 + number;
#ifndef WRONG
    synchronize(record);
#endif
    *(uint64_t *)*pool = number + 1; // the head
    synchronize(*pool);
#ifdef WRONG
    synchronize(record);
#endif
}

static void run(const char *path, int moves)
{
    int file = open(path, O_RDWR | O_CREAT, 0666);
    if (file < 0 || ftruncate(file, PAGE))
        give_up(path);
    char *pool = mmap(NULL, moves ? PAGE : ROOM, PROT_READ | PROT_WRITE, MAP_SHARED, file, 0);
    if (pool == MAP_FAILED)
        give_up(path);
    for (int i = 0; i < RECORDS; i++) {
        add_record(file, &pool, moves);
        PX86_ACK(i + 1);
    }
}

static int check(const char *path)
{
    int file = open(path, O_RDONLY);
    uint64_t count, record[2];
    if (file < 0 || pread(file, &count, sizeof count, 0) != sizeof count)
        give_up(path);
    if (count < acknowledged()) {
        printf("%lu records were acknowledged, %lu are there\n", acknowledged(), count);
        return 1;
    }
    for (uint64_t i = 0; i < count; i++) {
        if (pread(file, record, sizeof record, (off_t)(i + 1) * PAGE) != sizeof record) {
            printf("record %lu is behind the end\n", i);
            return 1;
        }
        if (record[0] != 100 + i || record[1] != 200 + i) {
            printf("record %lu is torn\n", i);
            return 1;
        }
    }
    return 0;
}

int main(int count, char **words)
{
    if (is_command(count, words, "check"))
        return check(words[2]);
    if (!is_command(count, words, "run"))
        return 2;
    run(words[2], count == 4);
    return 0;
}

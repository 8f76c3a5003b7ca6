// A log that is written by system calls, and never mapped: records are written at the end of the file, and then how many there are
// at its beginning.
//
//   append run FILE     writes three records
//   append check FILE   whether the file has each record that is counted, and each that was acknowledged
//
// Right: fdatasync of a record before the count is written.
// Wrong (-DWRONG): it is missing.
#include "pool.h"

enum { RECORDS = 3 };

struct record {
    uint64_t number, values[4];
};

static void write_whole(int file, const void *bytes, size_t size, off_t place)
{
    if (pwrite(file, bytes, size, place) != (ssize_t)size)
        give_up("pwrite");
}

static void synchronize(int file)
{
    if (fdatasync(file))
        give_up("fdatasync");
}

static off_t place_of(uint64_t number)
{
    return (off_t)(sizeof number + number * sizeof(struct record));
}

static void add_record(int file, uint64_t number)
{
    struct record record = {number, {10 + number, 20 + number, 30 + number, 40 + number}};
    uint64_t count = number + 1;
    write_whole(file, &record, sizeof record, place_of(number));
#ifndef WRONG
    synchronize(file);
#endif
    write_whole(file, &count, sizeof count, 0); // the count
    synchronize(file);
}

static int check_record(int file, uint64_t number)
{
    struct record record;
    if (pread(file, &record, sizeof record, place_of(number)) != sizeof record) {
        printf("record %lu is behind the end\n", number);
        return 1;
    }
    for (uint64_t i = 0; i < 4; i++)
        if (record.number != number || record.values[i] != 10 * (i + 1) + number) {
            printf("record %lu is torn\n", number);
            return 1;
        }
    return 0;
}

static int check(int file)
{
    uint64_t count = 0;
    if (pread(file, &count, sizeof count, 0) < 0)
        give_up("pread");
    if (count < acknowledged()) {
        printf("%lu records were acknowledged, %lu are there\n", acknowledged(), count);
        return 1;
    }
    for (uint64_t i = 0; i < count; i++)
        if (check_record(file, i))
            return 1;
    return 0;
}

int main(int count, char **words)
{
    if (count < 3)
        return 2;
    int file = open(words[2], O_RDWR | O_CREAT, 0666);
    if (file < 0)
        give_up(words[2]);
    if (is_command(count, words, "check"))
        return check(file);
    for (uint64_t i = 0; i < RECORDS; i++) {
        add_record(file, i);
        PX86_ACK(i + 1);
    }
    return 0;
}

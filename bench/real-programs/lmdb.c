// LMDB with MDB_WRITEMAP, without its lock file (one process); with -DWRITES without MDB_WRITEMAP: it writes its file.
//
//   lmdb init FILE     makes the file, with keys 0 to 3
//   lmdb run FILE      one transaction, which changes key 0 and adds key 10
//   lmdb check FILE    whether there are these keys, with whole values, and both changes or neither; both, if they were promised
#include <lmdb.h>
#include <stdbool.h>
#include <stdio.h>
#include <stdlib.h>
#include <string.h>

#include "px86-mark.h"

enum { VALUE = 8, KEYS = 11 };
#ifdef WRITES
enum { HOW = 0 };
#else
enum { HOW = MDB_WRITEMAP };
#endif

static MDB_env *environment;
static MDB_txn *transaction;
static MDB_dbi table;

static void need(int status, const char *what)
{
    if (status == 0)
        return;
    printf("%s: %s\n", what, mdb_strerror(status));
    exit(1);
}

static void open_file(const char *path, unsigned flags)
{
    need(mdb_env_create(&environment), "create");
    need(mdb_env_set_mapsize(environment, 1 << 18), "set the size");
    need(mdb_env_open(environment, path, MDB_NOSUBDIR | MDB_NOLOCK | flags, 0644), "open");
}

static void begin(unsigned flags)
{
    need(mdb_txn_begin(environment, NULL, flags, &transaction), "begin");
    need(mdb_dbi_open(transaction, NULL, 0, &table), "open the table");
}

static void put(int number, char letter)
{
    char value[VALUE];
    memset(value, letter, sizeof value);
    MDB_val key = {sizeof number, &number}, data = {sizeof value, value};
    need(mdb_put(transaction, table, &key, &data, 0), "put");
}

static void make(void)
{
    begin(0);
    for (int i = 0; i < 4; i++)
        put(i, 'a');
    need(mdb_txn_commit(transaction), "commit");
    begin(0);
    put(0, 'a');
    need(mdb_txn_commit(transaction), "commit");
}

static void change(void)
{
    begin(0);
    put(0, 'b');
    put(10, 'b');
    need(mdb_txn_commit(transaction), "commit");
    PX86_ACK(1);
}

// The letter of an item, if it is whole.
static char letter_of(const MDB_val *key, const MDB_val *data)
{
    const char *value = data->mv_data;
    bool good = key->mv_size == sizeof(int) && data->mv_size == VALUE;
    for (size_t i = 1; good && i < VALUE; i++)
        good = value[i] == value[0];
    if (good)
        return value[0];
    puts("a torn item");
    exit(1);
}

static int check(void)
{
    const char *number = getenv("PX86_ACK");
    char found[KEYS] = {0};
    MDB_cursor *cursor;
    MDB_val key, data;
    int count = 0;
    begin(MDB_RDONLY);
    need(mdb_cursor_open(transaction, table, &cursor), "open a cursor");
    for (int step = MDB_FIRST; mdb_cursor_get(cursor, &key, &data, (MDB_cursor_op)step) == 0;
         step = MDB_NEXT, count++) {
        char letter = letter_of(&key, &data);
        if (*(unsigned *)key.mv_data < KEYS)
            found[*(unsigned *)key.mv_data] = letter;
    }
    bool is_new = found[0] == 'b', was_promised = number && atoi(number) > 0;
    bool good = is_new == (found[10] == 'b') && count == 4 + is_new && (is_new || !was_promised) && found[1] == 'a' &&
                found[2] == 'a' && found[3] == 'a';
    if (!good)
        printf("key 0 is %c, key 10 is %c, of %d keys, promised %d\n", found[0], found[10], count, was_promised);
    return !good;
}

int main(int words, char **word)
{
    if (words != 3)
        return 2;
    bool checks = !strcmp(word[1], "check");
    open_file(word[2], checks ? MDB_RDONLY : HOW);
    if (checks)
        return check();
    if (!strcmp(word[1], "init"))
        make();
    else
        change();
    mdb_env_close(environment);
    return 0;
}

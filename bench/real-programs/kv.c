// One driver for key-value stores that map or write one file: compiled with -DTDB, -DGDBM, -DKC, -DTC or -DQD.
//
//   kv init FILE     makes the file, with keys k0 to k3
//   kv run FILE      changes k0 and adds k9: in one transaction, or where there is none, by two stores and then a sync
//   kv check FILE    whether the file opens, has k1 to k3 as they were and k0 and k9 old or new (by a transaction both or neither),
//                    counts as many keys as it has, and has what was acknowledged
#include <fcntl.h>
#include <stdbool.h>
#include <stdio.h>
#include <stdlib.h>
#include <string.h>

#include "px86-mark.h"

static const char *path;

__attribute__((noreturn)) static void give_up(const char *what)
{
    puts(what);
    exit(1);
}

static void need(bool good, const char *what)
{
    if (!good)
        give_up(what);
}

// ---- the stores: open, put, get, begin, commit, count, close

#if defined(TDB)
#include <signal.h>
#include <stdarg.h>
#include <sys/stat.h>
#include <sys/time.h>
#include <sys/types.h>
#include <time.h>

#include <tdb.h>
static const bool has_transactions = true;
static TDB_CONTEXT *store;

static void open_store(void)
{
    store = tdb_open(path, 8, 0, O_RDWR | O_CREAT, 0644);
    need(store, "open failed");
}

static TDB_DATA data_of(const char *text)
{
    return (TDB_DATA){(void *)text, strlen(text)};
}

static void put(const char *key, const char *value)
{
    need(tdb_store(store, data_of(key), data_of(value), 0) == 0, "store failed");
}

static char *get(const char *key)
{
    TDB_DATA found = tdb_fetch(store, data_of(key));
    return found.dptr ? strndup((char *)found.dptr, found.dsize) : NULL;
}

static void begin(void)
{
    need(tdb_transaction_start(store) == 0, "begin failed");
}

static void commit(void)
{
    need(tdb_transaction_commit(store) == 0, "commit failed");
}

static long count(void)
{
    need(tdb_check(store, NULL, NULL) == 0, "tdb_check finds it corrupt");
    return tdb_traverse(store, NULL, NULL);
}

static void close_store(void)
{
    tdb_close(store);
}
#elif defined(GDBM)
#include <gdbm.h>
static const bool has_transactions = false;
static GDBM_FILE store;

static void open_store(void)
{
    store = gdbm_open(path, 512, GDBM_WRCREAT, 0644, NULL);
    need(store, "open failed");
}

static datum data_of(const char *text)
{
    return (datum){(void *)text, (int)strlen(text)};
}

static void put(const char *key, const char *value)
{
    need(gdbm_store(store, data_of(key), data_of(value), GDBM_REPLACE) == 0, "store failed");
}

static char *get(const char *key)
{
    datum found = gdbm_fetch(store, data_of(key));
    return found.dptr ? strndup(found.dptr, (size_t)found.dsize) : NULL;
}

static void begin(void)
{
}

static void commit(void)
{
    gdbm_sync(store);
}

static long count(void)
{
    gdbm_count_t number;
    need(gdbm_count(store, &number) == 0, "count failed");
    return (long)number;
}

static void close_store(void)
{
    gdbm_close(store);
}
#elif defined(KC)
#include <kclangc.h>
static const bool has_transactions = true;
static KCDB *store;

static void open_store(void)
{
    char name[4096];
    snprintf(name, sizeof name, "%s#type=kch#bnum=8#msiz=1m", path);
    store = kcdbnew();
    need(kcdbopen(store, name, KCOWRITER | KCOCREATE), "open failed");
}

static void put(const char *key, const char *value)
{
    need(kcdbset(store, key, strlen(key), value, strlen(value)), "store failed");
}

static char *get(const char *key)
{
    size_t size;
    return kcdbget(store, key, strlen(key), &size);
}

static void begin(void)
{
    need(kcdbbegintran(store, 1), "begin failed");
}

static void commit(void)
{
    need(kcdbendtran(store, 1), "commit failed");
}

static long count(void)
{
    return (long)kcdbcount(store);
}

static void close_store(void)
{
    kcdbclose(store);
}
#elif defined(TC)
#include <tchdb.h>
static const bool has_transactions = true;
static TCHDB *store;

static void open_store(void)
{
    store = tchdbnew();
    tchdbtune(store, 8, -1, -1, 0);
    need(tchdbopen(store, path, HDBOWRITER | HDBOCREAT | HDBOTSYNC), "open failed");
}

static void put(const char *key, const char *value)
{
    need(tchdbput2(store, key, value), "store failed");
}

static char *get(const char *key)
{
    return tchdbget2(store, key);
}

static void begin(void)
{
    need(tchdbtranbegin(store), "begin failed");
}

static void commit(void)
{
    need(tchdbtrancommit(store), "commit failed");
}

static long count(void)
{
    return (long)tchdbrnum(store);
}

static void close_store(void)
{
    tchdbclose(store);
}
#elif defined(QD)
#include <depot.h>
static const bool has_transactions = false;
static DEPOT *store;

static void open_store(void)
{
    store = dpopen(path, DP_OWRITER | DP_OCREAT, 8);
    need(store, "open failed");
}

static void put(const char *key, const char *value)
{
    need(dpput(store, key, -1, value, -1, DP_DOVER), "store failed");
}

static char *get(const char *key)
{
    return dpget(store, key, -1, 0, -1, NULL);
}

static void begin(void)
{
}

static void commit(void)
{
    dpsync(store);
}

static long count(void)
{
    return dprnum(store);
}

static void close_store(void)
{
    dpclose(store);
}
#endif

// ---- what is done, and what is to be found

static void make(void)
{
    char key[8];
    begin();
    for (int i = 0; i < 4; i++) {
        snprintf(key, sizeof key, "k%d", i);
        put(key, "value-0");
    }
    commit();
}

static void change(void)
{
    begin();
    put("k0", "value-1");
    put("k9", "value-1");
    commit();
    PX86_ACK(1);
}

static bool is(const char *value, const char *wanted)
{
    return value && !strcmp(value, wanted);
}

static void check(void)
{
    const char *number = getenv("PX86_ACK");
    bool was_promised = number && atoi(number) > 0;
    char *changed = get("k0"), *added = get("k9"), key[8];
    bool is_new = is(changed, "value-1");
    need(is_new || is(changed, "value-0"), "k0 is neither old nor new");
    need(!added || is(added, "value-1"), "k9 is there, and is not what was stored");
    need(!was_promised || (is_new && added), "the change was promised, and is lost");
    need(!has_transactions || is_new == (added != NULL), "half of the transaction is there");
    for (int i = 1; i < 4; i++) {
        snprintf(key, sizeof key, "k%d", i);
        need(is(get(key), "value-0"), "another key has changed");
    }
    need(count() == 4 + (added != NULL), "the keys are counted wrongly");
}

int main(int words, char **word)
{
    if (words != 3)
        return 2;
    path = word[2];
    open_store();
    if (!strcmp(word[1], "init"))
        make();
    else if (!strcmp(word[1], "run"))
        change();
    else
        check();
    close_store();
    return 0;
}

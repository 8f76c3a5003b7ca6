// One transaction of libpmemobj over an array of 512 words, 4 KiB.
//
//   transaction init|run|check FILE
#include <libpmemobj.h>
#include <stdbool.h>
#include <stdint.h>
#include <stdio.h>
#include <stdlib.h>
#include <string.h>

#include "px86-mark.h"

enum { WORDS = 512 };

struct root {
    uint64_t words[WORDS];
};

static void run(PMEMobjpool *pool, struct root *root)
{
    TX_BEGIN(pool)
    {
        pmemobj_tx_add_range_direct(root->words, sizeof root->words);
        for (uint64_t place = 0; place < WORDS; place++)
            root->words[place] = place + 1;
    }
    TX_END
    PX86_ACK(1);
}

// All words are new, or all are as they were, if nothing was acknowledged.
static int check(const struct root *root)
{
    const char *acknowledged = getenv("PX86_ACK");
    uint64_t are_new = 0, are_old = 0;
    for (uint64_t place = 0; place < WORDS; place++) {
        are_new += root->words[place] == place + 1;
        are_old += root->words[place] == 0;
    }
    printf("%lu words are new, %lu are old\n", are_new, are_old);
    bool may_be_old = !acknowledged || !strcmp(acknowledged, "0");
    return are_new == WORDS || (may_be_old && are_old == WORDS) ? 0 : 1;
}

int main(int count, char **words)
{
    if (count != 3)
        return 2;
    bool is_new = !strcmp(words[1], "init");
    int status = 0;
    PMEMobjpool *pool =
        is_new ? pmemobj_create(words[2], "transaction", 8 * PMEMOBJ_MIN_POOL, 0644) : pmemobj_open(words[2], "transaction");
    if (!pool)
        return 3;
    struct root *root = pmemobj_direct(pmemobj_root(pool, sizeof *root));
    if (!strcmp(words[1], "run"))
        run(pool, root);
    if (!strcmp(words[1], "check"))
        status = check(root);
    pmemobj_close(pool);
    return status;
}

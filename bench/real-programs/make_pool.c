// Makes a pool of libpmemobj: make_pool FILE LAYOUT
#include <libpmemobj.h>

int main(int words, char **word)
{
    PMEMobjpool *pool = words == 3 ? pmemobj_create(word[1], word[2], PMEMOBJ_MIN_POOL, 0644) : NULL;
    if (!pool)
        return 1;
    pmemobj_close(pool);
    return 0;
}

/* stands for PMDK's ex_common.h, which Debian does not ship */
#include <sys/stat.h>
#include <unistd.h>
#define CREATE_MODE_RW (S_IWUSR | S_IRUSR)
static inline int file_exists(char const *file)
{
    return access(file, F_OK);
}
static inline int find_last_set_64(unsigned long v)
{
    return 63 - __builtin_clzll(v);
}
#ifndef MIN
#define MIN(a, b) ((a) < (b) ? (a) : (b))
#define MAX(a, b) ((a) > (b) ? (a) : (b))
#endif

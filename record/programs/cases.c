// What a recorder has to refuse, or has to get right although it is no plain store.
//
//   cases NAME FILE    does what the name says to a pool of two pages
#define _GNU_SOURCE
#include <poll.h>
#include <pthread.h>
#include <signal.h>
#include <spawn.h>
#include <stdatomic.h>
#include <sys/sendfile.h>
#include <sys/syscall.h>
#include <sys/time.h>
#include <sys/uio.h>
#include <sys/wait.h>
#include <time.h>

#include "pool.h"

enum { PAGE = 4096, SIZE = 2 * PAGE };

static volatile char *pool;
static const char *path;

// An instruction that finds the pool in rdi, and what is not 0 in rcx, xmm0, xmm1, zmm2 and k1.
#define RUN(INSTRUCTION)                                                                                               \
    __asm__ volatile(INSTRUCTION : : "D"(pool), "c"(5L), "a"(0L), "d"(0L), "b"(7L) : "memory", "cc", "rsi", "r8")

// ---- instructions

static void cmpxchg16b(void)
{
    RUN("lock cmpxchg16b 64(%%rdi)");
}

static void locked_over_two_words(void)
{
    RUN("lock incq 4(%%rdi)");
}

static void fxsave(void)
{
    RUN("fxsave 64(%%rdi)");
}

static void xsave(void)
{
    RUN("mov $3, %%eax; xsave 64(%%rdi)");
}

static void fnstenv(void)
{
    RUN("fnstenv 64(%%rdi)");
}

static void maskmovdqu(void)
{
    RUN("pcmpeqd %%xmm0, %%xmm0; maskmovdqu %%xmm0, %%xmm0");
}

static void scatter(void)
{
    RUN("vpbroadcastd %%ecx, %%zmm2; vpxord %%zmm3, %%zmm3, %%zmm3; kxnorw %%k1, %%k1, %%k1;"
        "vpscatterdd %%zmm2, 64(%%rdi,%%zmm3,1)%{%%k1%}");
}

static void narrowing_store(void)
{
    RUN("vpbroadcastq %%rcx, %%zmm2; vpmovqb %%zmm2, 64(%%rdi)");
}

static void compressed_store(void)
{
    RUN("vpbroadcastq %%rcx, %%zmm2; kxnorw %%k1, %%k1, %%k1; vpcompressd %%zmm2, 64(%%rdi)%{%%k1%}");
}

// libcapstone 4 does not decode it.
static void unknown_instruction(void)
{
    RUN("vpbroadcastq %%rcx, %%zmm2; kxnorw %%k1, %%k1, %%k1; vextracti32x4 $0, %%zmm2, 64(%%rdi)%{%%k1%}");
}

static void stack_in_the_pool(void)
{
    RUN("mov %%rsp, %%r8; lea 1024(%%rdi), %%rsp; push %%rcx; mov %%r8, %%rsp");
}

static void store_over_the_edge(void)
{
    // A page that is not of the pool, right behind it.
    mmap((void *)(pool + SIZE), PAGE, PROT_READ | PROT_WRITE, MAP_PRIVATE | MAP_ANONYMOUS | MAP_FIXED, -1, 0);
    RUN("movq %%rcx, 8188(%%rdi)");
}

static void store_behind_the_end(void)
{
    // The file ends within the second page.
    RUN("movq %%rcx, 4160(%%rdi)");
}

// A processor that has no clwb raises SIGILL at it. Here this signal is sent just before it.
static void illegal_flush(void)
{
    pool[0] = 1;
    __asm__ volatile("syscall; clwb (%3)"
                     :
                     : "a"((long)SYS_tgkill), "D"((long)getpid()), "S"((long)getpid()), "r"(pool), "d"((long)SIGILL)
                     : "rcx", "r11", "memory");
    pool[1] = 2;
}

// A store that is far from its caller: in a library, behind a call of the program.
__attribute__((noinline)) static void store_in_a_library(void)
{
    void *(*volatile set)(void *, int, size_t) = memset;
    set((void *)(pool + LINE), 7, 3);
    pool[0] = 1;
}

// The C library stores in many ways, by the number of bytes and by the processor.
static void copy_by_the_library(void)
{
    void *(*volatile set)(void *, int, size_t) = memset;
    void *(*volatile copy)(void *, const void *, size_t) = memcpy;
    void *(*volatile move)(void *, const void *, size_t) = memmove;
    char text[300], *bytes = (char *)pool;
    for (size_t i = 0; i < sizeof text; i++)
        text[i] = (char)(7 * i);
    for (size_t i = 0; i < sizeof text; i += 3) {
        set(bytes + 17 * i % 3000, (int)i, i);
        copy(bytes + PAGE + 29 * i % 3000, text, i);
        move(bytes + 11 * i % 3000, bytes + 11 * i % 3000 + i / 2, i);
    }
}

static void acknowledge(void)
{
    pool[0] = 1;
    PX86_ACK(1);
    if (write(1, "one\n", 4) < 0 || write(2, "", 0) < 0)
        give_up("write");
    PX86_ACK(18446744073709551615u);
}

// ---- system calls

static int open_pool(void)
{
    int file = open(path, O_RDWR);
    if (file < 0)
        give_up(path);
    return file;
}

static void read_into_the_pool(void)
{
    int file = open("/proc/self/exe", O_RDONLY);
    if (read(file, (void *)(pool + 64), 4) != 4)
        give_up("read");
}

static void readv_into_the_pool(void)
{
    int file = open("/proc/self/exe", O_RDONLY);
    struct iovec part = {(void *)(pool + 64), 4};
    if (readv(file, &part, 1) != 4)
        give_up("readv");
}

static void expect(const char *what, ssize_t result, ssize_t wanted)
{
    if (result != wanted)
        give_up(what);
}

static void write_to_the_file(void)
{
    int file = open_pool(), appending = open(path, O_RDWR | O_APPEND), durable = open(path, O_WRONLY | O_DSYNC);
    struct iovec parts[] = {{"pq", 2}, {"rst", 3}};
    pool[0] = 1;
    expect("pwrite", pwrite(file, "abc", 3, 64), 3);
    expect("lseek", lseek(file, 2 * LINE - 4, SEEK_SET), 2 * LINE - 4);
    expect("write", write(file, "ghijklmn", 8), 8);
    expect("writev", writev(file, parts, 2), 5);
    expect("pwritev", pwritev(file, parts, 2, 256), 5);
    expect("pwritev2", pwritev2(file, parts, 1, -1, 0), 2);
    // It is written at the end, whatever place it is given.
    expect("pwrite", pwrite(appending, "x", 1, 0), 1);
    expect("write", write(appending, "yz", 2), 2);
    expect("pwrite", pwrite(durable, "d", 1, 3), 1);
    expect("write from the mapping", pwrite(file, (const char *)pool + 64, 3, 512), 3);
    expect("fdatasync", fdatasync(file), 0);
}

// Of the files that it opens the second one has a name as the pool has, and more, and may be written to.
static void open_beside(void)
{
    char name[4096];
    snprintf(name, sizeof name, "%s.log", path);
    open("/dev/null", O_RDWR);
    if (open(name, O_RDWR | O_CREAT, 0666) < 0 || open(name, O_RDONLY) < 0)
        give_up(name);
}

static void write_and_map(void)
{
    int file = open_pool();
    expect("pwrite", pwrite(file, "ab", 2, 8), 2);
    pool = map_pool(path, SIZE);
    pool[9] = 1;
}

// It is never mapped, and empty at first.
static void write_alone(void)
{
    int file = open_pool();
    expect("write", write(file, "ab", 2), 2);
    expect("fsync", fsync(file), 0);
    expect("write", write(file, "cd", 2), 2);
}

static void write_to_a_successor(void)
{
    pool[0] = 1;
    unlink(path);
    expect("write", write(open(path, O_RDWR | O_CREAT, 0666), "a", 1), 1);
}

// It grows under a mapping that was made before, by fallocate before the mapping is moved, and is mapped anew. Then it shrinks.
static void grow(void)
{
    int file = open_pool();
    expect("ftruncate", ftruncate(file, SIZE + PAGE), 0);
    pool[SIZE] = 2;
    expect("fallocate", fallocate(file, 0, PAGE, 2 * SIZE), 0);
    pool = mremap((void *)pool, 2 * SIZE, 3 * SIZE, MREMAP_MAYMOVE);
    pool[2 * SIZE] = 3;
    munmap((void *)pool, 3 * SIZE);
    pool = mmap(NULL, 5 * PAGE, PROT_READ | PROT_WRITE, MAP_SHARED, file, 0);
    pool[PAGE] = 4;
    expect("msync", msync((void *)pool, PAGE, MS_SYNC), 0);
    expect("ftruncate", ftruncate(file, PAGE), 0);
    expect("ftruncate", ftruncate(file, SIZE), 0);
}

static void write_by_sendfile(void)
{
    int file = open_pool(), other = memfd_create("other", 0);
    expect("write", write(other, "ab", 2), 2);
    off_t start = 0;
    expect("lseek", lseek(file, 64, SEEK_SET), 64);
    expect("sendfile", sendfile(file, other, &start, 2), 2);
}

static void fork_a_child(void)
{
    int status;
    pid_t child = fork();
    if (child == 0)
        _exit(0);
    waitpid(child, &status, 0);
}

static void spawn_a_child(void)
{
    pid_t child;
    char *words[] = {"true", NULL};
    pool[0] = 1;
    if (posix_spawnp(&child, "true", NULL, NULL, words, words + 1) == 0)
        wait(NULL);
}

static void become_another_program(void)
{
    pool[0] = 1;
    execlp("true", "true", NULL);
}

static void synchronize_in_ways(void)
{
    int file = open_pool();
    pool[0] = 1;
    msync((void *)pool, PAGE, MS_ASYNC); // promises nothing
    msync((void *)(pool + PAGE), 1, MS_SYNC);
    fsync(file);
    fdatasync(file);
    msync((void *)(pool + 1), PAGE, MS_SYNC); // fails: no page begins there
}

// The first of two pages that are mapped together, and none of the second.
static void synchronize_a_part(void)
{
    pool[0] = 1;
    if (msync((void *)pool, PAGE, MS_SYNC) || msync((void *)(pool + PAGE), 0, MS_SYNC))
        give_up("msync");
}

static void synchronize_all_of(char *start, char *end)
{
    if (msync(start, (size_t)(end - start), MS_SYNC))
        give_up("msync");
}

// The pages of the file where four pages were mapped: 0, 1, 2 and 3; without the second; 0, 3, 2 and 3; 0, 3 and 2.
static void synchronize_pieces(void)
{
    char *start = (char *)pool, *moved = mmap(NULL, PAGE, PROT_NONE, MAP_PRIVATE | MAP_ANONYMOUS, -1, 0);
    pool[0] = 1;
    munmap(start + PAGE, PAGE);
    if (msync(start, 4 * PAGE, MS_SYNC) == 0) // a page is missing
        give_up("msync of what is not mapped");
    synchronize_all_of(start + 2 * PAGE, start + 3 * PAGE);
    mmap(start + PAGE, PAGE, PROT_READ | PROT_WRITE, MAP_SHARED | MAP_FIXED, open_pool(), 3 * PAGE);
    pool[PAGE] = 2; // the first byte of page 3
    synchronize_all_of(start, start + 3 * PAGE);
    if (mremap(start + 3 * PAGE, PAGE, PAGE, MREMAP_MAYMOVE | MREMAP_FIXED, moved) != moved)
        give_up("mremap");
    moved[1] = 3;
    synchronize_all_of(moved, moved + PAGE);
    // What is no page of the file.
    mmap(start + PAGE, PAGE, PROT_READ | PROT_WRITE, MAP_PRIVATE | MAP_ANONYMOUS | MAP_FIXED, -1, 0);
    pool[PAGE] = 4;
    synchronize_all_of(start, start + 3 * PAGE);
}

// The first page of the mapping becomes the second page of the file.
static void synchronize_a_remapped_page(void)
{
    pool[0] = 1;
    if (syscall(SYS_remap_file_pages, pool, (long)PAGE, 0L, 1L, 0L))
        give_up("remap_file_pages");
    pool[0] = 2;
    synchronize_all_of((char *)pool, (char *)pool + PAGE);
}

// ---- ends

static void die_by_a_signal(void)
{
    pool[0] = 1;
    raise(SIGSEGV);
}

static void be_killed(void)
{
    pool[0] = 1;
    raise(SIGKILL);
}

static void never_end(void)
{
    pool[0] = 1;
    for (;;)
        __asm__ volatile("");
}

static void sleep_forever(void)
{
    pool[0] = 1;
    for (;;)
        pause();
}

// ---- signals

static void count(int signal)
{
    ((volatile uint64_t *)pool)[signal]++;
}

// Signals come between any two instructions, and while it waits. The sum of both counts is stored last.
static void handle_signals(void)
{
    struct itimerval often = {{0, 10000}, {0, 10000}}, never = {{0, 0}, {0, 0}};
    struct timespec pause = {0, 50000000}, left;
    volatile uint64_t *words = (volatile uint64_t *)pool;
    signal(SIGALRM, count);
    signal(SIGUSR1, count);
    signal(SIGUSR2, SIG_IGN);
    setitimer(ITIMER_REAL, &often, NULL);
    for (int i = 0; i < 2000; i++) {
        words[0]++;
        if (i % 100 == 0)
            raise(SIGUSR1);
        if (i % 100 == 50)
            raise(SIGUSR2);
    }
    while (nanosleep(&pause, &left))
        pause = left;
    setitimer(ITIMER_REAL, &never, NULL);
    words[64] = words[0] + words[SIGUSR1];
}

// The program's own SIGTRAP is not that of the recorder's steps. (It has one only: the kernel takes a handler of
// SIGTRAP away when it is stepped.)
static void trap(void)
{
    signal(SIGTRAP, count);
    __asm__ volatile("int3" : : : "memory");
}

// Flags that are pushed do not have the trap flag (bit 8) that the recorder sets.
static void push_flags(void)
{
    uint64_t flags;
    __asm__ volatile("pushfq; popq %0" : "=r"(flags));
    pool[0] = (char)(flags >> 8 & 1);
}

// It waits by no call of those that take no time in a recording of several threads.
static void *write_later(void *end)
{
    poll(NULL, 0, 100);
    if (write(*(int *)end, "x", 1) != 1)
        give_up("write");
    return NULL;
}

// A call that signals break off, and that the kernel begins again.
static void restart_a_call(void)
{
    struct itimerval often = {{0, 10000}, {0, 10000}}, never = {{0, 0}, {0, 0}};
    int ends[2];
    char byte;
    pthread_t writer;
    signal(SIGALRM, count);
    if (pipe(ends) || pthread_create(&writer, NULL, write_later, &ends[1]))
        give_up("pipe");
    setitimer(ITIMER_REAL, &often, NULL);
    if (read(ends[0], &byte, 1) != 1)
        give_up("read");
    setitimer(ITIMER_REAL, &never, NULL);
    pthread_join(writer, NULL);
    pool[0] = byte;
}

// ---- the region

static void map_twice(void)
{
    volatile char *again = mmap(NULL, PAGE, PROT_READ | PROT_WRITE, MAP_SHARED, open_pool(), PAGE);
    pool[0] = 1;
    again[0] = 2; // the byte at 4096
    munmap((void *)pool, SIZE);
    again[1] = 3;
}

// The file has no bytes when it is mapped.
static void map_then_extend(void)
{
    pool = mmap(NULL, SIZE, PROT_READ | PROT_WRITE, MAP_SHARED, open_pool(), 0);
    if (truncate(path, SIZE) || ftruncate(open_pool(), SIZE))
        give_up("truncate");
    pool[PAGE] = 1;
}

// What is done before the pool is mapped is not recorded.
static void fork_and_map(void)
{
    fork_a_child();
    if (system("true"))
        give_up("system");
    pool = map_pool(path, SIZE);
    pool[0] = 1;
}

static void map_another_of_this_name(void)
{
    pool[0] = 1;
    unlink(path);
    pool = map_pool(path, SIZE);
    pool[0] = 2;
}

static void rename_onto_the_pool(void)
{
    char other[4096];
    snprintf(other, sizeof other, "%s.other", path);
    pool = map_pool(other, SIZE);
    pool[0] = 1;
    rename(other, path);
    pool = map_pool(path, SIZE);
}

// A large region is not compared behind each step that may have changed it, but before the next line of the log.
enum { LARGE = 1 << 30 };

static void map_large(void)
{
    pool = mmap(NULL, LARGE, PROT_READ | PROT_WRITE, MAP_SHARED, open_pool(), 0);
}

static void store_in_a_large_pool(void)
{
    map_large();
    pool[LARGE / 2] = 7;
}

static void readv_into_a_large_pool(void)
{
    map_large();
    readv_into_the_pool();
    pool[0] = 1;
}

static void scatter_in_a_large_pool(void)
{
    static _Alignas(LINE) volatile char other[2 * LINE];
    volatile char *large;
    map_large();
    scatter();
    large = pool;
    pool = other;
    scatter();
    large[0] = 1;
}

static void map_privately(void)
{
    pool = mmap(NULL, SIZE, PROT_READ | PROT_WRITE, MAP_PRIVATE, open_pool(), 0);
    pool[0] = 1;
}

static void map_nothing(void)
{
}

_Alignas(LINE) volatile char symbol[LINE + 8];
extern volatile char unaligned_symbol[8]; // 8 bytes behind the beginning of a line
__asm__(".pushsection .data; .balign 64; .zero 8; .globl unaligned_symbol; .type unaligned_symbol, @object;"
        ".size unaligned_symbol, 8; unaligned_symbol: .zero 8; .popsection");

static void store_to_symbols(void)
{
    for (int i = 0; i < LINE + 8; i++)
        symbol[i] = (char)i;
    symbol[5] = 55; // relative to rip
    flush(symbol + LINE, 8);
    unaligned_symbol[0] = 1;
}

// Nothing but what is between the marks is recorded.
static void mark(void)
{
    pool[0] = 1;
    PX86_BEGIN();
    pool[1] = 2;
    PX86_BEGIN();
    pool[2] = 3;
    PX86_END();
    pool[3] = 4;
    PX86_ACK(1);
    fork_a_child();
}

static void mark_too_early(void)
{
    PX86_BEGIN();
    pool = map_pool(path, SIZE);
    pool[0] = 1;
}

// ---- threads

static _Atomic(volatile char *) shared;

static void *store_when_mapped(void *own)
{
    volatile char *place;
    // One of the threads is asleep when the pool is mapped, the other runs.
    if (own == (void *)1)
        usleep(100000);
    while (!(place = shared))
        ;
    for (int i = 0; i < 100; i++)
        place[LINE * (intptr_t)own]++;
    return NULL;
}

static void map_beside_threads(void)
{
    pthread_t threads[2];
    for (intptr_t i = 0; i < 2; i++)
        pthread_create(&threads[i], NULL, store_when_mapped, (void *)(i + 1));
    usleep(20000);
    shared = map_pool(path, SIZE);
    for (int i = 0; i < 2; i++)
        pthread_join(threads[i], NULL);
}

static void *store_and_end(void *own)
{
    pool[(intptr_t)own]++;
    return NULL;
}

static void make_many_threads(void)
{
    enum { MANY = 40 };
    pthread_t threads[MANY];
    for (intptr_t i = 0; i < MANY; i++)
        pthread_create(&threads[i], NULL, store_and_end, (void *)i);
    for (int i = 0; i < MANY; i++)
        pthread_join(threads[i], NULL);
}

static volatile int told;

static void *store_when_told(void *unused)
{
    while (told < 4)
        ;
    pool[LINE] = 1;
    return unused;
}

// Says in ordinary memory, behind each kind of flush, what it did.
static void tell_behind_flushes(void)
{
    pthread_t thread;
    pthread_create(&thread, NULL, store_when_told, NULL);
    pool[0] = 1;
    RUN("clwb (%%rdi)");
    told = 1;
    pool[0] = 2;
    RUN("clflushopt (%%rdi)");
    told = 2;
    pool[0] = 3;
    RUN("clflush (%%rdi)");
    told = 3;
    told = 4;
    pthread_join(thread, NULL);
}

static void *store_forever(void *unused)
{
    for (;;)
        pool[LINE]++;
    return unused;
}

static void *wait_forever(void *unused)
{
    for (;;)
        pause();
    return unused;
}

static void end_beside_threads(void)
{
    pthread_t thread;
    pthread_create(&thread, NULL, store_forever, NULL);
    pthread_create(&thread, NULL, wait_forever, NULL);
    for (int i = 0; i < 1000; i++)
        pool[0]++;
}

static void *end_of_all(void *unused)
{
    usleep(10000);
    pool[LINE] = 2;
    exit(7);
    return unused;
}

static void end_the_first_thread(void)
{
    pthread_t thread;
    pool[0] = 1;
    pthread_create(&thread, NULL, end_of_all, NULL);
    pthread_exit(NULL);
}

static const struct {
    const char *name;
    void (*run)(void);
    size_t mapped; // how much of the pool is mapped before, or 0
    size_t size;   // of the file
} cases[] = {
    {"cmpxchg16b", cmpxchg16b, SIZE, SIZE},
    {"locked-over-two-words", locked_over_two_words, SIZE, SIZE},
    {"fxsave", fxsave, SIZE, SIZE},
    {"xsave", xsave, SIZE, SIZE},
    {"fnstenv", fnstenv, SIZE, SIZE},
    {"maskmovdqu", maskmovdqu, SIZE, SIZE},
    {"scatter", scatter, SIZE, SIZE},
    {"narrowing-store", narrowing_store, SIZE, SIZE},
    {"compressed-store", compressed_store, SIZE, SIZE},
    {"unknown-instruction", unknown_instruction, SIZE, SIZE},
    {"stack-in-the-pool", stack_in_the_pool, SIZE, SIZE},
    {"store-over-the-edge", store_over_the_edge, SIZE, SIZE},
    {"store-behind-the-end", store_behind_the_end, SIZE, PAGE + LINE},
    {"illegal-flush", illegal_flush, SIZE, SIZE},
    {"store-in-a-library", store_in_a_library, SIZE, SIZE},
    {"copy-by-the-library", copy_by_the_library, SIZE, SIZE},
    {"acknowledge", acknowledge, SIZE, SIZE},
    {"read-into-the-pool", read_into_the_pool, SIZE, SIZE},
    {"readv-into-the-pool", readv_into_the_pool, SIZE, SIZE},
    {"write-to-the-file", write_to_the_file, SIZE, SIZE},
    {"open-beside", open_beside, SIZE, SIZE},
    {"write-and-map", write_and_map, 0, SIZE},
    {"write-alone", write_alone, 0, 0},
    {"write-to-a-successor", write_to_a_successor, SIZE, SIZE},
    {"write-by-sendfile", write_by_sendfile, SIZE, SIZE},
    {"grow", grow, 2 * SIZE, SIZE},
    {"fork", fork_a_child, SIZE, SIZE},
    {"spawn", spawn_a_child, SIZE, SIZE},
    {"exec", become_another_program, SIZE, SIZE},
    {"synchronize", synchronize_in_ways, SIZE, SIZE},
    {"synchronize-a-part", synchronize_a_part, SIZE, SIZE},
    {"synchronize-pieces", synchronize_pieces, 2 * SIZE, 2 * SIZE},
    {"synchronize-a-remapped-page", synchronize_a_remapped_page, SIZE, SIZE},
    {"die-by-a-signal", die_by_a_signal, SIZE, SIZE},
    {"be-killed", be_killed, SIZE, SIZE},
    {"never-end", never_end, SIZE, SIZE},
    {"sleep-forever", sleep_forever, SIZE, SIZE},
    {"handle-signals", handle_signals, SIZE, SIZE},
    {"map-twice", map_twice, SIZE, SIZE},
    {"rename-onto-the-pool", rename_onto_the_pool, 0, SIZE},
    {"store-in-a-large-pool", store_in_a_large_pool, 0, LARGE},
    {"readv-into-a-large-pool", readv_into_a_large_pool, 0, LARGE},
    {"scatter-in-a-large-pool", scatter_in_a_large_pool, 0, LARGE},
    {"map-privately", map_privately, 0, SIZE},
    {"map-nothing", map_nothing, 0, SIZE},
    {"trap", trap, SIZE, SIZE},
    {"push-flags", push_flags, SIZE, SIZE},
    {"restart-a-call", restart_a_call, SIZE, SIZE},
    {"map-then-extend", map_then_extend, 0, 0},
    {"map-another-of-this-name", map_another_of_this_name, SIZE, SIZE},
    {"fork-and-map", fork_and_map, 0, SIZE},
    {"store-to-symbols", store_to_symbols, 0, SIZE},
    {"mark", mark, SIZE, SIZE},
    {"mark-too-early", mark_too_early, 0, SIZE},
    {"map-beside-threads", map_beside_threads, 0, SIZE},
    {"make-many-threads", make_many_threads, SIZE, SIZE},
    {"tell-behind-flushes", tell_behind_flushes, SIZE, SIZE},
    {"end-beside-threads", end_beside_threads, SIZE, SIZE},
    {"end-the-first-thread", end_the_first_thread, SIZE, SIZE},
};

int main(int count, char **words)
{
    path = words[count - 1];
    for (size_t i = 0; count == 3 && i < sizeof cases / sizeof *cases; i++)
        if (!strcmp(cases[i].name, words[1])) {
            int file = open(path, O_RDWR | O_CREAT, 0666);
            if (file < 0 || ftruncate(file, (off_t)cases[i].size))
                give_up(path);
            if (cases[i].mapped)
                pool = mmap(NULL, cases[i].mapped, PROT_READ | PROT_WRITE, MAP_SHARED, file, 0);
            close(file);
            cases[i].run();
            return 0;
        }
    return 2;
}

// What a recorder may miss, or may disturb, if it does not step each instruction.
//
//   traps NAME FILE    does what the name says to a pool of two pages
#define _GNU_SOURCE
#include <dlfcn.h>
#include <pthread.h>
#include <signal.h>
#include <sys/time.h>
#include <sys/wait.h>

#include "pool.h"

enum { PAGE = 4096, SIZE = 2 * PAGE, ROOM = 1 << 26 };

static volatile char *pool;
static const char *path;

static void map_here(char *place)
{
    int file = open(path, O_RDWR | O_CREAT, 0666);
    if (file < 0 || ftruncate(file, SIZE))
        give_up(path);
    pool = mmap(place, SIZE, PROT_READ | PROT_WRITE, MAP_SHARED | MAP_FIXED, file, 0);
}

// ---- faults and signals of the program's own

static volatile char *protected_page;

// The signal is blocked in its own handler.
static void store_and_open(int signal)
{
    pool[0]++;
    pool[1] = (char)signal;
    if (mprotect((void *)protected_page, PAGE, PROT_READ | PROT_WRITE))
        give_up("mprotect");
}

// Three stores to a page that the program itself has closed. Its handler opens it.
static void handle_faults(void)
{
    protected_page = pool + PAGE;
    signal(SIGSEGV, store_and_open);
    for (int i = 0; i < 3; i++) {
        if (mprotect((void *)protected_page, PAGE, PROT_READ))
            give_up("mprotect");
        protected_page[i] = 7;
    }
}

// The kernel takes the handler of a blocked or ignored signal away when a fault raises it. Both are as they were.
static void keep_handlers(void)
{
    struct sigaction found;
    sigset_t faults, blocked;
    sigemptyset(&faults);
    sigaddset(&faults, SIGSEGV);
    signal(SIGSEGV, store_and_open);
    sigprocmask(SIG_BLOCK, &faults, NULL);
    pool[0] = 1;
    sigaction(SIGSEGV, NULL, &found);
    sigprocmask(SIG_UNBLOCK, &faults, &blocked);
    pool[1] = found.sa_handler == store_and_open && sigismember(&blocked, SIGSEGV);
    signal(SIGSEGV, SIG_IGN);
    pool[2] = 3;
    sigaction(SIGSEGV, NULL, &found);
    pool[3] = found.sa_handler == SIG_IGN;
}

static volatile int rung;

static void ring(int signal)
{
    (void)signal;
    rung++;
}

// A long string store, of the pool and much behind it, again and again, until signals have come ten times. It is made once at least:
// on a busy machine all signals may come before it.
static void repeat_beside_signals(void)
{
    struct itimerval often = {{0, 1000}, {0, 1000}}, never = {{0, 0}, {0, 0}};
    if (mmap((void *)(pool + SIZE), ROOM, PROT_READ | PROT_WRITE, MAP_PRIVATE | MAP_ANONYMOUS | MAP_FIXED_NOREPLACE, -1,
             0) == MAP_FAILED)
        give_up("mmap");
    signal(SIGALRM, ring);
    setitimer(ITIMER_REAL, &often, NULL);
    char value = 1;
    do {
        volatile char *to = pool;
        size_t count = SIZE + ROOM;
        __asm__ volatile("rep stosb" : "+D"(to), "+c"(count) : "a"(value) : "memory");
        value++;
    } while (rung < 10);
    setitimer(ITIMER_REAL, &never, NULL);
}

// ---- string stores

static void repeat(volatile char *to, const volatile char *from, size_t count)
{
    __asm__ volatile("rep movsb" : "+D"(to), "+S"(from), "+c"(count) : : "memory");
}

// Over the beginning of the pool, by words that are not aligned, over each other, and downward.
static void repeat_in_ways(void)
{
    static char text[64] = "abcdefghijklmnopqrstuvwxyz";
    volatile char *to = pool + 100;
    const char *from = text;
    size_t count = 3;
    mmap((void *)(pool - PAGE), PAGE, PROT_READ | PROT_WRITE, MAP_PRIVATE | MAP_ANONYMOUS | MAP_FIXED, -1, 0);
    repeat(pool - 5, text, 20);
    __asm__ volatile("rep movsq" : "+D"(to), "+S"(from), "+c"(count) : : "memory");
    repeat(pool + 201, pool + 200, 9);
    to = pool + 2, from = text + 7, count = 5;
    __asm__ volatile("std; rep movsb; cld" : "+D"(to), "+S"(from), "+c"(count) : : "memory");
    repeat(pool, text, 0);
}

// ---- code

// movb $1,(%rdi); clwb (%rdi); sfence; lock incl 64(%rdi); ret
static const uint8_t first_code[] = {0xc6, 0x07, 1,    0x66, 0x0f, 0xae, 0x37, 0x0f,
                                     0xae, 0xf8, 0xf0, 0xff, 0x47, 64,   0xc3};
// movb $2,8(%rdi); clflush (%rdi); mfence; ret
static const uint8_t second_code[] = {0xc6, 0x47, 8, 2, 0x0f, 0xae, 0x3f, 0x0f, 0xae, 0xf0, 0xc3};

static void call(const void *code)
{
    void (*volatile function)(volatile char *) = (void (*)(volatile char *))code;
    function(pool);
}

// Code that is made, changed, and at last protected.
static void run_made_code(void)
{
    char *code = mmap(NULL, PAGE, PROT_READ | PROT_WRITE | PROT_EXEC, MAP_PRIVATE | MAP_ANONYMOUS, -1, 0);
    memcpy(code, first_code, sizeof first_code);
    call(code);
    memcpy(code, second_code, sizeof second_code);
    call(code);
    mprotect(code, PAGE, PROT_READ | PROT_EXEC);
    call(code);
}

// The function `told` of a library.
static void *load(void **library)
{
    char name[4096];
    snprintf(name, sizeof name, "%s.so", path);
    *library = dlopen(name, RTLD_NOW);
    if (!*library)
        give_up(name);
    return dlsym(*library, "told");
}

// Code of a file that is shared. The file stays as it is. (In a library's file code is where it is in memory.)
static void run_shared_code(void)
{
    enum { SOME = 32 };
    char before[SOME], after[SOME];
    void *library, *told = load(&library);
    Dl_info found;
    dladdr(told, &found);
    off_t offset = (char *)told - (char *)found.dli_fbase;
    int file = open(found.dli_fname, O_RDWR);
    if (file < 0 || pread(file, before, SOME, offset) != SOME)
        give_up(found.dli_fname);
    char *shared = mmap(NULL, PAGE, PROT_READ | PROT_EXEC, MAP_SHARED, file, offset & -PAGE);
    call(shared + offset % PAGE);
    pool[128] = pread(file, after, SOME, offset) == SOME && !memcmp(before, after, SOME);
}

// No frame and no symbol tells of these. In front of the first stands data, of which the last bytes seem to be the
// beginning of a long instruction.
extern const char behind_data[], over_a_lock[];
__asm__(
    ".section .text.hidden, \"ax\"; .balign 4096; .byte 0x0f, 0x0b, 0x48, 0xb8; behind_data: clwb (%rdi); sfence; lock "
    "orl $0, (%rsp); ret;"
    ".byte 0x48, 0xb8; over_a_lock: movl 4096(%rdi), %ecx; test %ecx, %ecx; je 1f; .byte 0xf0; 1: incl 64(%rdi); ret;"
    ".balign 4096; .text");

static void run_code_behind_data(void)
{
    call(behind_data);
    call(behind_data);
}

// The first time the prefix is jumped over.
static void jump_over_a_lock(void)
{
    call(over_a_lock);
    pool[PAGE] = 1;
    call(over_a_lock);
}

// On pages of their own.
#define ALONE __attribute__((noinline, aligned(4096), section(".text.alone")))

ALONE static void flush_alone(void)
{
    flush(pool, 1);
}
ALONE static void behind_it(void)
{
    __asm__ volatile(".fill 64, 1, 0x90"); // room for other code
}

// The value of an instruction is one too: sfence; nop. The first time it is jumped to.
ALONE static void jump_into_an_instruction(void)
{
    uint32_t value = 0;
    for (int i = 0; i < 2; i++)
        __asm__ volatile("test %1, %1; je 1f; .byte 0xb8; 1: .byte 0x0f, 0xae, 0xf8, 0x90"
                         : "+a"(value)
                         : "r"(i)
                         : "memory");
    *(volatile uint32_t *)(pool + 4) = value;
}

// Its page becomes again what the file has.
static void drop_code(void)
{
    pool[0] = 1;
    flush_alone();
    if (madvise((void *)(uintptr_t)flush_alone, PAGE, MADV_DONTNEED))
        give_up("madvise");
    flush_alone();
    behind_it();
}

// A library that is loaded only now, and again.
static void load_code(void)
{
    void *library;
    call(load(&library));
    dlclose(library);
    call(load(&library));
}

// The program's own code is changed, and at last protected.
static void change_own_code(void)
{
    char *place = (char *)(uintptr_t)behind_it;
    mprotect(place, PAGE, PROT_READ | PROT_WRITE | PROT_EXEC);
    memcpy(place, first_code, sizeof first_code);
    call(place);
    memcpy(place, second_code, sizeof second_code);
    call(place);
    mprotect(place, PAGE, PROT_READ | PROT_EXEC);
    call(place);
}

// Behind the recording the program's code is as it was.
static void read_own_code(void)
{
    static const uint8_t wanted[] = {0x66, 0x0f, 0xae};
    flush_alone();
    pool[0] = 1;
    PX86_END();
    pool[1] = memmem((void *)(uintptr_t)flush_alone, 32, wanted, sizeof wanted) != NULL;
}

// ---- a call that waits

static void *read_into_pool(void *end)
{
    if (read(*(int *)end, (void *)pool, 1) != 1)
        pool[1] = 1;
    return NULL;
}

static void read_while_others_run(void)
{
    int ends[2];
    pthread_t reader;
    if (pipe(ends))
        give_up("pipe");
    pthread_create(&reader, NULL, read_into_pool, &ends[0]);
    usleep(1000);
    for (volatile int i = 0; i < 3000; i++)
        ;
    if (write(ends[1], "x", 1) != 1)
        give_up("write");
    pthread_join(reader, NULL);
}

// ---- functions in place of marks

__attribute__((noinline)) void opened(void)
{
    pool[1] = 2;
}

// Stores its number, and calls itself with each smaller one before.
__attribute__((noinline)) void worked(int number)
{
    if (number > 1)
        worked(number - 1);
    pool[4] = (char)number;
}

// Calls itself by another function, from the same place.
__attribute__((noinline)) void visited(int number);
__attribute__((noinline)) void visit(int number)
{
    visited(number);
    pool[8 + number] = (char)number;
}
__attribute__((noinline)) void visited(int number)
{
    if (number > 1)
        visit(number - 1);
    pool[number] = (char)number;
}

static void visit_twice(void)
{
    visit(2);
}

__attribute__((noinline)) void closed(void)
{
    pool[5] = 6;
}

// A child calls one of them before the pool is mapped.
static void call_functions(void)
{
    int status;
    munmap((void *)pool, SIZE);
    pid_t child = fork();
    if (child == 0) {
        map_here((char *)pool);
        opened();
        _exit(0);
    }
    waitpid(child, &status, 0);
    map_here((char *)pool);
    pool[0] = WIFEXITED(status) ? 1 : 99;
    opened();
    pool[2] = 3;
    worked(2);
    pool[3] = 4;
    opened();
    worked(1);
    closed();
    pool[6] = 7;
}

// Two hundred million instructions.
static void count_far(void)
{
    pool[0] = 1;
    for (uint32_t i = 0; i < 100000000; i++)
        __asm__ volatile("");
    pool[1] = 2;
}

static const struct {
    const char *name;
    void (*run)(void);
} traps[] = {
    {"count-far", count_far},
    {"handle-faults", handle_faults},
    {"keep-handlers", keep_handlers},
    {"repeat-beside-signals", repeat_beside_signals},
    {"repeat-in-ways", repeat_in_ways},
    {"run-made-code", run_made_code},
    {"run-shared-code", run_shared_code},
    {"run-code-behind-data", run_code_behind_data},
    {"jump-over-a-lock", jump_over_a_lock},
    {"jump-into-an-instruction", jump_into_an_instruction},
    {"drop-code", drop_code},
    {"load-code", load_code},
    {"change-own-code", change_own_code},
    {"read-own-code", read_own_code},
    {"read-while-others-run", read_while_others_run},
    {"call-functions", call_functions},
    {"visit", visit_twice},
};

int main(int count, char **words)
{
    path = words[count - 1];
    for (size_t i = 0; count == 3 && i < sizeof traps / sizeof *traps; i++)
        if (!strcmp(traps[i].name, words[1])) {
            // Room in front of it and behind it.
            char *place = mmap(NULL, PAGE + SIZE + ROOM, PROT_NONE, MAP_PRIVATE | MAP_ANONYMOUS, -1, 0);
            munmap(place + PAGE + SIZE, ROOM);
            map_here(place + PAGE);
            traps[i].run();
            return 0;
        }
    return 2;
}

// Accesses to a mapped file, each as a case: accesses NAME FILE. What a case reads of the file before it has overwritten it
// stands in record/test-reads, and was worked out by hand.
#define _GNU_SOURCE
#include <fcntl.h>
#include <immintrin.h>
#include <linux/fs.h>
#include <pthread.h>
#include <sched.h>
#include <signal.h>
#include <stdint.h>
#include <stdio.h>
#include <stdlib.h>
#include <string.h>
#include <sys/ioctl.h>
#include <sys/mman.h>
#include <sys/sendfile.h>
#include <sys/syscall.h>
#include <sys/uio.h>
#include <sys/wait.h>
#include <unistd.h>

enum { SIZE = 4 * 4096 };

static int file;
static uint8_t *pool;
static uint8_t buffer[4096];
static volatile uint64_t sink;

static void load(uint64_t at)
{
    uint64_t value;
    __asm__ volatile("mov (%1), %0" : "=r"(value) : "r"(pool + at));
    sink = value;
}

static void store(uint64_t at)
{
    __asm__ volatile("movq $5, (%0)" : : "r"(pool + at) : "memory");
}

static uint8_t *map(int protection, int flags)
{
    return mmap(NULL, SIZE, protection, flags, file, 0);
}

// ---- instructions

static void load_word(void) { load(0x10); }
static void load_over_two(void) { load(0x14); }
static void load_byte(void) { __asm__ volatile("movzbl 0x17(%0), %%eax" : : "r"(pool) : "rax"); }
static void load_other(void) { load(0x28); }
static void store_word(void) { store(0x10); load(0x10); }
static void store_over_two(void) { store(0x14); load(0x10); load(0x18); }
static void store_half(void) { __asm__ volatile("movl $5, 0x10(%0)" : : "r"(pool) : "memory"); load(0x10); }
static void store_halves(void) { __asm__ volatile("movl $5, 0x10(%0)\n\tmovl $6, 0x14(%0)" : : "r"(pool) : "memory"); load(0x10); }
static void store_short(void) { __asm__ volatile("movw $5, 0x10(%0)" : : "r"(pool) : "memory"); load(0x10); }
static void store_byte(void) { __asm__ volatile("movb $5, 0x10(%0)" : : "r"(pool) : "memory"); load(0x10); }
static void store_condition(void) { __asm__ volatile("sete 0x10(%0)" : : "r"(pool) : "memory"); load(0x10); }
static void store_register(void) { __asm__ volatile("mov %0, 0x10(%0)" : : "r"(pool) : "memory"); load(0x10); }
static void store_streaming(void) { __asm__ volatile("movnti %0, 0x10(%0)" : : "r"(pool) : "memory"); load(0x10); }
static void store_segment(void) { __asm__ volatile("rex.w mov %%ds, 0x10(%0)" : : "r"(pool) : "memory"); load(0x10); }
static void add(void) { __asm__ volatile("addq $1, 0x10(%0)" : : "r"(pool) : "memory"); }
static void exchange(void) { __asm__ volatile("xchg %%rax, 0x10(%0)" : : "r"(pool) : "rax", "memory"); }
static void compare_exchange(void) { __asm__ volatile("lock cmpxchg %%rcx, 0x10(%0)" : : "r"(pool) : "rax", "memory"); }
static void compare(void) { __asm__ volatile("cmpq $1, 0x10(%0)" : : "r"(pool) : "cc"); }
static void flush(void) { __asm__ volatile("clflush 0x10(%0)" : : "r"(pool) : "memory"); }
static void pop(void) { __asm__ volatile("push 0x10(%0)\n\tpop %%rax" : : "r"(pool) : "rax"); }
static void jump(void) { __asm__ volatile("lea 1f(%%rip), %%rax\n\tmov %%rax, 0x800(%0)\n\tjmp *0x800(%0)\n1:" : : "r"(pool) : "rax", "memory"); }

// ---- string instructions

static void move_bytes(void)
{
    uint8_t *to = buffer, *from = pool + 0x11;
    uint64_t count = 0x10;
    __asm__ volatile("rep movsb" : "+D"(to), "+S"(from), "+c"(count) : : "memory");
}

static void move_downward(void)
{
    uint8_t *to = buffer + 8, *from = pool + 0x18;
    uint64_t count = 2;
    __asm__ volatile("std\n\trep movsq\n\tcld" : "+D"(to), "+S"(from), "+c"(count) : : "memory");
}

static void move_into(void)
{
    uint8_t *to = pool + 0x10, *from = buffer;
    uint64_t count = 3;
    __asm__ volatile("rep movsq" : "+D"(to), "+S"(from), "+c"(count) : : "memory");
    load(0x10);
    load(0x18);
    load(0x20);
}

static void fill(void)
{
    uint8_t *to = pool + 0x10;
    uint64_t count = 15;
    __asm__ volatile("rep stosb" : "+D"(to), "+c"(count) : "a"(7) : "memory");
    load(0x10);
    load(0x18);
}

static void scan(void)
{
    uint8_t *at = pool + 0x10;
    uint64_t count = 9;
    __asm__ volatile("repne scasb" : "+D"(at), "+c"(count) : "a"(7) : "cc");
}

static void compare_bytes(void)
{
    uint8_t *at = pool + 0x20, *other = buffer;
    uint64_t count = 1;
    __asm__ volatile("repe cmpsb" : "+D"(at), "+S"(other), "+c"(count) : : "cc");
}

// ---- vectors

static void load_16(void) { __asm__ volatile("movdqu 0x10(%0), %%xmm0" : : "r"(pool) : "xmm0"); }
static void load_scalar(void) { __asm__ volatile("movsd 0x18(%0), %%xmm0" : : "r"(pool) : "xmm0"); }
static void load_single(void) { __asm__ volatile("movss 0x18(%0), %%xmm0" : : "r"(pool) : "xmm0"); }
static void compare_16(void) { __asm__ volatile("movdqa (%1), %%xmm0\n\tpcmpeqb (%0), %%xmm0" : : "r"(pool + 0x10), "r"(pool + 0x800) : "xmm0"); }
static void store_16(void) { __asm__ volatile("movups %%xmm0, 0x10(%0)" : : "r"(pool) : "memory"); load(0x10); load(0x18); load(0x20); }
static void store_high(void) { __asm__ volatile("movhps %%xmm0, 0x10(%0)" : : "r"(pool) : "memory"); load(0x10); load(0x18); }
static void store_single(void) { __asm__ volatile("movss %%xmm0, 0x10(%0)" : : "r"(pool) : "memory"); load(0x10); }
static void store_low_4(void) { __asm__ volatile("movd %%xmm0, 0x10(%0)" : : "r"(pool) : "memory"); load(0x10); }
static void store_low_8(void) { __asm__ volatile("movq %%xmm0, 0x10(%0)" : : "r"(pool) : "memory"); load(0x10); }
static void store_extracted(void) { __asm__ volatile("pextrb $0, %%xmm0, 0x10(%0)" : : "r"(pool) : "memory"); load(0x10); }
static void store_32(void) { __asm__ volatile("vmovdqu %%ymm0, 0x10(%0)\n\tvzeroupper" : : "r"(pool) : "memory"); load(0x10); load(0x28); }
// The masks choose the first word alone.
static void store_masked(void)
{
    __asm__ volatile("vpcmpeqd %%xmm1, %%xmm1, %%xmm1\n\tvmovq %%xmm1, %%xmm1\n\tvmaskmovps %%xmm0, %%xmm1, 0x10(%0)" : : "r"(pool) : "memory");
    load(0x18);
}
static void gather(void)
{
    __asm__ volatile("vpcmpeqd %%xmm2, %%xmm2, %%xmm2\n\tvpxor %%xmm1, %%xmm1, %%xmm1\n\tvpgatherdd %%xmm2, 0x10(%0,%%xmm1,4), %%xmm0"
                     : : "r"(pool) : "xmm0", "xmm1", "xmm2");
}
static void store_masked_512(void)
{
    __asm__ volatile("kmovw %1, %%k1\n\tvmovdqu64 %%zmm0, 0x10(%0) %{%%k1%}\n\tvzeroupper" : : "r"(pool), "r"(1) : "memory");
    load(0x18);
}
static void store_masked_prefix(void)
{
    // The same behind a prefix that changes nothing.
    __asm__ volatile("kmovw %1, %%k1\n\t.byte 0x3e\n\tvmovdqu64 %%zmm0, 0x10(%0) %{%%k1%}\n\tvzeroupper" : : "r"(pool), "r"(1) : "memory");
    load(0x18);
}
static void store_512(void) { __asm__ volatile("vmovdqu64 %%zmm0, 0x10(%0)\n\tvzeroupper" : : "r"(pool) : "memory"); load(0x10); load(0x18); load(0x20); }
static void save(void) { __asm__ volatile("fxsave 0x800(%0)" : : "r"(pool) : "memory"); }

// ---- system calls

// Who looks on does not change what a call does: it is of so many bytes.
static void is_of(ssize_t bytes, ssize_t wanted)
{
    if (bytes != wanted)
        _exit(9);
}

static void read_16(void) { lseek(file, 0x14, SEEK_SET); is_of(read(file, buffer, 4), 4); }
static void pread_16(void) { is_of(pread(file, buffer, 16, 0x10), 16); }
static void readv_all(void) { struct iovec v = {buffer, 8}; is_of(readv(file, &v, 1), 8); }
static void preadv2_all(void) { struct iovec v = {buffer, 8}; is_of(preadv2(file, &v, 1, -1, 0), 8); }
static void write_from(void) { int null = open("/dev/null", O_WRONLY); is_of(write(null, pool + 0x18, 9), 9); }
static void writev_from(void) { int null = open("/dev/null", O_WRONLY); struct iovec v = {pool + 0x18, 8}; is_of(writev(null, &v, 1), 8); }
static void read_into(void) { int zero = open("/dev/zero", O_RDONLY); is_of(read(zero, pool + 0x10, 8), 8); load(0x10); }
static void write_file(void) { is_of(pwrite(file, buffer, 8, 0x10), 8); load(0x10); }
static void open_name(void) { memcpy(pool + 0x800, "/dev/null", 10); is_of(open((char *)pool + 0x800, O_RDONLY) < 0, 0); }
static void send(void) { int null = open("/dev/null", O_WRONLY); is_of(sendfile(null, file, NULL, 8), 8); }
static void copy_range(void) { sink = (uint64_t)syscall(SYS_copy_file_range, file, NULL, fileno(tmpfile()), NULL, 8, 0); }
static void clone_file(void) { sink = (uint64_t)ioctl(fileno(tmpfile()), FICLONE, file); }
static void terminal(void) { sink = (uint64_t)isatty(file); load(0x10); }
static void holes(void) { sink = (uint64_t)lseek(file, 0, SEEK_HOLE); }
static void synchronize(void) { msync(pool, SIZE, MS_SYNC); fsync(file); }
static void own_memory(void) { int memory = open("/proc/self/mem", O_RDONLY); sink = (uint64_t)pread(memory, buffer, 8, (off_t)(pool + 0x10)); }

// ---- maps

static void second_map(void) { uint8_t *other = map(PROT_READ | PROT_WRITE, MAP_SHARED); store(0x10); sink = *(volatile uint64_t *)(other + 0x10) + *(volatile uint64_t *)(other + 0x20); }
static void read_only(void) { mprotect(pool, SIZE, PROT_READ); load(0x10); mprotect(pool, SIZE, PROT_READ | PROT_WRITE); store(0x18); }
static void private_store(void) { volatile uint64_t *other = (uint64_t *)map(PROT_READ | PROT_WRITE, MAP_PRIVATE); other[2] = 1; load(0x10); }
// The private page is a copy from before the shared store.
static void private_copy(void)
{
    volatile uint64_t *other = (uint64_t *)map(PROT_READ | PROT_WRITE, MAP_PRIVATE);
    other[0x100] = 1;
    store(0x10);
    store(0x18);
    store(0x20);
    store(0x28);
    sink = other[2];
}
static void move_map(void) { pool = mremap(pool, SIZE, 2 * SIZE, MREMAP_MAYMOVE); }
static void unmap(void) { load(0x10); munmap(pool, 4096); sink = (uint64_t)(pool[0x1010]); }
static void unmap_and_map(void)
{
    load(0x10);
    munmap(pool, 4096);
    volatile uint8_t *elsewhere = mmap(pool - (64 << 20), SIZE, PROT_READ, MAP_SHARED, file, 0);
    sink = elsewhere[0x1010];
}
static void map_second_page(void) { volatile uint64_t *other = mmap(NULL, 4096, PROT_READ, MAP_SHARED, file, 4096); sink = other[2]; }

// ---- processes

static void child(void)
{
    pid_t pid = fork();
    if (pid == 0) {
        load(0x10);
        store(0x18);
        _exit(0);
    }
    waitpid(pid, NULL, 0);
    load(0x18);
    load(0x20);
}
static void *in_thread(void *unused) { load(0x10); return unused; }
static void thread(void) { pthread_t it; pthread_create(&it, NULL, in_thread, NULL); pthread_join(it, NULL); }
static void share_descriptors(void)
{
    pid_t pid = (pid_t)syscall(SYS_clone, CLONE_FILES | SIGCHLD, NULL, NULL, NULL, NULL);
    if (pid == 0)
        _exit(0);
    waitpid(pid, NULL, 0);
}
static const char *name_of_file;
static void shell(void) { char line[4200]; snprintf(line, sizeof line, "head -c 25 '%s' >/dev/null", name_of_file); sink = (uint64_t)system(line); }
static void handle(int number) { (void)number; _exit(7); }
static void own_fault(void) { signal(SIGSEGV, handle); load(0x10); __asm__ volatile("movq $0, 8"); }
// An instruction that loads a word, and stores to where nothing is mapped.
static void load_and_fault(void)
{
    signal(SIGSEGV, handle);
    __asm__ volatile("movsq" : : "S"(pool + 0x10), "D"((uint64_t)8) : "memory");
}
static void divide(void)
{
    signal(SIGFPE, handle);
    __asm__ volatile("xor %%eax, %%eax\n\txor %%edx, %%edx\n\tdivq 0x10(%0)" : : "r"(pool) : "rax", "rdx", "cc");
}
static void alarms(void)
{
    signal(SIGALRM, SIG_IGN);
    ualarm(100, 100);
    for (int i = 0; i < 2000; i++)
        sink = *(volatile uint64_t *)(pool + 0x808);
    ualarm(0, 0);
    load(0x10);
}

#define CASE(name) {#name, name}
static const struct {
    const char *name;
    void (*run)(void);
} cases[] = {
    CASE(load_word), CASE(load_over_two), CASE(load_byte), CASE(load_other), CASE(store_word), CASE(store_over_two), CASE(store_half),
    CASE(store_halves), CASE(store_short), CASE(store_byte), CASE(store_condition), CASE(store_register), CASE(store_streaming),
    CASE(store_segment), CASE(add), CASE(exchange), CASE(compare_exchange), CASE(compare), CASE(flush), CASE(pop), CASE(jump),
    CASE(move_bytes), CASE(move_downward), CASE(move_into), CASE(fill), CASE(scan), CASE(compare_bytes), CASE(load_16), CASE(load_scalar),
    CASE(load_single), CASE(compare_16), CASE(store_16), CASE(store_high), CASE(store_single), CASE(store_low_4), CASE(store_low_8),
    CASE(store_extracted), CASE(store_32), CASE(store_masked), CASE(gather), CASE(store_masked_512), CASE(store_masked_prefix),
    CASE(store_512), CASE(save), CASE(read_16), CASE(pread_16), CASE(readv_all), CASE(preadv2_all), CASE(write_from), CASE(writev_from),
    CASE(read_into), CASE(write_file), CASE(open_name), CASE(send), CASE(copy_range), CASE(clone_file), CASE(terminal), CASE(holes),
    CASE(synchronize), CASE(own_memory), CASE(second_map), CASE(read_only), CASE(private_store), CASE(private_copy), CASE(move_map),
    CASE(unmap), CASE(unmap_and_map), CASE(map_second_page), CASE(child), CASE(thread), CASE(share_descriptors), CASE(shell), CASE(own_fault), CASE(load_and_fault), CASE(divide),
    CASE(alarms),
};

int main(int count, char **words)
{
    if (count != 3)
        return 2;
    name_of_file = words[2];
    file = open(words[2], O_RDWR);
    pool = map(PROT_READ | PROT_WRITE, MAP_SHARED);
    for (size_t i = 0; i < sizeof cases / sizeof *cases; i++)
        if (!strcmp(cases[i].name, words[1])) {
            cases[i].run();
            return 0;
        }
    return 2;
}

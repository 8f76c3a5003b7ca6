// A random checker, the same each time: checker NUMBER FILE OFFSET.. ends with 0 or 1. It makes a few accesses of many kinds,
// most of them near the OFFSETs (decimal). Of every second one what it does next depends on what it has read.
//
//   checker batch NUMBER FILE OFFSET..      reads memories from standard input, each behind its acknowledgement (8 bytes), makes
//                                           each the FILE, and says for each how the checker ends, in one line
//   checker recover NUMBER FILE OFFSET..    a random recovery: it loads, stores, flushes and fences, and ends with 0
//   checker is NUMBER FILE OTHER            ends with 1 if the file is as the OTHER; it compares words in random order
#define _GNU_SOURCE
#include <fcntl.h>
#include <immintrin.h>
#include <pthread.h>
#include <stdint.h>
#include <stdio.h>
#include <stdlib.h>
#include <string.h>
#include <sys/mman.h>
#include <sys/stat.h>
#include <sys/uio.h>
#include <sys/wait.h>
#include <unistd.h>

enum { LONGEST = 64, MOST_PLACES = 64, KINDS = 34 };

static uint64_t number, taken;
static int follows_reads;
static int file;
static uint8_t *pool;
static size_t size;
static size_t places[MOST_PLACES];
static size_t place_count;

static uint64_t mix(uint64_t x)
{
    x ^= x >> 33;
    x *= 0xff51afd7ed558ccdull;
    x ^= x >> 33;
    x *= 0xc4ceb9fe1a85ec53ull;
    return x ^ x >> 33;
}

// What was read goes into one number.
static void take(uint64_t value)
{
    taken = mix(taken * 31 + value + 1);
}

static void take_bytes(const uint8_t *from, size_t count)
{
    for (size_t i = 0; i < count; i++)
        take(from[i]);
}

// A number below LIMIT, by the checker, the step, and what it is for; and by what was read, if it follows that.
static uint64_t draw(uint64_t step, uint64_t what, uint64_t limit)
{
    return mix(number * 1000003 + step * 101 + what * 7 + (follows_reads ? taken % 3 : 0)) % limit;
}

static size_t draw_place(uint64_t step, uint64_t what)
{
    if (!place_count || draw(step, what + 40, 5) == 0)
        return draw(step, what, size - LONGEST);
    size_t at = places[draw(step, what + 20, place_count)] + draw(step, what + 30, 16);
    at = at < 8 ? 0 : at - 8;
    return at < size - LONGEST ? at : size - LONGEST;
}

// ---- accesses, at a place and at the word of it, of some bytes

static void move_bytes(size_t at, size_t length, uint8_t *to)
{
    const uint8_t *from = pool + at;
    __asm__ volatile("rep movsb" : "+D"(to), "+S"(from), "+c"(length) : : "memory");
}

static void fill_words(uint64_t *word, size_t count)
{
    __asm__ volatile("rep stosq" : "+D"(word), "+c"(count) : "a"((uint64_t)4) : "memory");
}

// 32 bytes by a vector register of AVX, or by two of SSE.
__attribute__((target("avx"))) static void load_avx(size_t at, uint8_t *to)
{
    _mm256_storeu_si256((__m256i *)to, _mm256_loadu_si256((__m256i *)(pool + at)));
}

static void load_32(size_t at, uint8_t *to)
{
    if (__builtin_cpu_supports("avx"))
        load_avx(at, to);
    else
        memcpy(to, pool + at, 32);
}

static void write_out(size_t at, size_t length, int by_vector)
{
    struct iovec vector = {pool + at, length};
    int null = open("/dev/null", O_WRONLY);
    if ((by_vector ? writev(null, &vector, 1) : write(null, pool + at, length)) < 0)
        take(99);
    close(null);
}

// Through a pipe: out of the map, or into it.
static void through_pipe(size_t at, size_t length, uint8_t *other, int into)
{
    int ends[2];
    const uint8_t *from = into ? other : pool + at;
    uint8_t *to = into ? pool + at : other;
    if (pipe(ends) || write(ends[1], from, length) != (ssize_t)length || read(ends[0], to, length) != (ssize_t)length)
        exit(5);
    close(ends[0]);
    close(ends[1]);
    if (!into)
        take_bytes(to, length);
}

static void by_private_map(size_t at)
{
    uint8_t *other = mmap(NULL, size, PROT_READ | PROT_WRITE, MAP_PRIVATE, file, 0);
    other[at] = 1;
    pool[at + 8] = 2;
    take((uint64_t)other[at] + other[at + 8]);
    munmap(other, size);
}

static void by_child(size_t at)
{
    int status;
    pid_t child = fork();
    if (child == 0) {
        take(pool[at]);
        pool[at] = 3;
        _exit((int)(taken & 63));
    }
    waitpid(child, &status, 0);
    take((uint64_t)WEXITSTATUS(status));
    take(pool[at]);
}

static void by_stack(uint64_t *word)
{
    uint64_t value;
    __asm__ volatile("sub $128, %%rsp\n\tpush (%1)\n\tpop %0\n\tadd $128, %%rsp" : "=r"(value) : "r"(word) : "memory", "cc");
    take(value);
}

static void make_access(uint64_t step)
{
    uint8_t buffer[2 * LONGEST] = {0};
    size_t at = draw_place(step, 2), other = draw_place(step, 4), length = 1 + draw(step, 3, 40);
    volatile uint64_t *word = (uint64_t *)(pool + (at & -(size_t)8));
    switch (draw(step, 1, KINDS)) {
    case 0: case 1: case 2: case 3: take(*word); break;
    case 4: take(*(volatile uint8_t *)(pool + at)); break;
    case 5: take(*(volatile uint16_t *)(pool + at)); break;
    case 6: take(*(volatile uint32_t *)(pool + at)); break;
    case 7: take(*(volatile uint64_t *)(pool + at)); break;
    case 8: _mm_storeu_si128((__m128i *)buffer, _mm_loadu_si128((__m128i *)(pool + at))); take_bytes(buffer, 16); break;
    case 9: memcpy(buffer, pool + at, length); take_bytes(buffer, length); break;
    case 10: move_bytes(at, length, buffer); take_bytes(buffer, length); break;
    case 11: take((uint64_t)(memcmp(pool + at, pool + other, length) < 0)); break;
    case 12: take(strnlen((char *)pool + at, length)); break;
    case 13: *word = 5; break;
    case 14: memset(pool + at, 7, length); break;
    case 15: memcpy(pool + at, pool + other, 8); break;
    case 16: *word += 3; break;
    case 17: *(volatile uint8_t *)(pool + at) = 9; break;
    case 18: _mm_storeu_si128((__m128i *)(pool + at), _mm_set1_epi8(3)); break;
    case 19: __atomic_fetch_add(word, 1, __ATOMIC_SEQ_CST); break;
    case 20: if (pread(file, buffer, length, (off_t)at) > 0) take_bytes(buffer, length); break;
    case 21: lseek(file, (off_t)at, SEEK_SET); if (read(file, buffer, 16) > 0) take_bytes(buffer, 16); break;
    case 22: write_out(at, length, 0); break;
    case 23: through_pipe(at, length, buffer, 0); break;
    case 24: through_pipe(at, 8, buffer, 1); break;
    case 25: msync(pool, size, MS_SYNC); __asm__ volatile("clflush (%0)" : : "r"(pool + at) : "memory"); break;
    case 26: by_private_map(at); break;
    case 27: by_child(at); break;
    case 28: fill_words((uint64_t *)word, (length + 7) / 8); break;
    case 29: load_32(at, buffer); take_bytes(buffer, 32); break;
    case 30: write_out(at, length, 1); break;
    case 31: mprotect(pool, 4096, PROT_READ); take(pool[at]); mprotect(pool, 4096, PROT_READ | PROT_WRITE); break;
    case 32: take(__sync_val_compare_and_swap((uint64_t *)word, *word, 77)); break;
    case 33: by_stack((uint64_t *)word); break;
    }
}

static void *in_thread(void *at)
{
    take(*(volatile uint64_t *)(pool + (uintptr_t)at));
    return NULL;
}

// What a recovery does: one step.
static void recover_by(uint64_t step)
{
    size_t at = draw_place(step, 2), other = draw_place(step, 4), length = 1 + draw(step, 3, 40);
    volatile uint64_t *word = (uint64_t *)(pool + (at & -(size_t)8));
    switch (draw(step, 1, 14)) {
    case 0: case 1: take(*word); break;
    case 2: *word = taken % 3; break;
    case 3: case 4: *word = draw(step, 5, 3); break;
    case 5: *(volatile uint8_t *)(pool + at) = 9; break;
    case 6: memset(pool + at, 7, length); break;
    case 7: memcpy(pool + at, pool + other, 8); break;
    case 8: fill_words((uint64_t *)word, (length + 7) / 8); break;
    case 9: __atomic_fetch_add(word, 1, __ATOMIC_SEQ_CST); break;
    case 10: __asm__ volatile("clflush (%0)" : : "r"(word) : "memory"); break;
    case 11: __asm__ volatile(".byte 0x66\n\tclflush (%0)" : : "r"(word) : "memory"); break;
    case 12: __asm__ volatile("sfence" : : : "memory"); break;
    case 13: __asm__ volatile("mfence" : : : "memory"); break;
    }
}

// ---- a run

// The file is mapped. Its words begin with a number and its path.
static int map_file(char **words)
{
    struct stat it;
    number = strtoull(words[0], NULL, 10);
    place_count = 0;
    for (char **word = words + 2; *word && place_count < MOST_PLACES; word++)
        places[place_count++] = strtoull(*word, NULL, 10);
    file = open(words[1], O_RDWR);
    if (file < 0 || fstat(file, &it))
        return 0;
    size = (size_t)it.st_size;
    pool = mmap(NULL, size, PROT_READ | PROT_WRITE, MAP_SHARED, file, 0);
    follows_reads = mix(number) & 1;
    return pool != MAP_FAILED;
}

static int recover(char **words)
{
    if (!map_file(words))
        return 3;
    uint64_t steps = 2 + mix(number + 5) % 10;
    for (uint64_t step = 0; step < steps; step++)
        recover_by(step);
    return 0;
}

static int is_as(char **words)
{
    uint64_t other[LONGEST], most = sizeof other / sizeof *other;
    int same = open(words[2], O_RDONLY);
    if (!map_file(words) || size > sizeof other || read(same, other, size) != (ssize_t)size)
        return 3;
    // An odd step comes to each of a power of two.
    uint64_t begin = mix(number), step = 2 * mix(number + 1) + 1;
    for (uint64_t at = 0; at < most; at++) {
        uint64_t word = (begin + at * step) % most;
        if (word < size / 8 && ((volatile uint64_t *)pool)[word] != other[word])
            return 0;
    }
    return 1;
}

static int run(char **words)
{
    static const uint64_t moduli[] = {2, 3, 8, 30, 200};
    if (!map_file(words))
        return 3;
    uint64_t steps = 2 + mix(number + 5) % 8;
    for (uint64_t step = 0; step < steps; step++)
        make_access(step);
    if (mix(number + 6) % 12 == 0) {
        pthread_t thread;
        pthread_create(&thread, NULL, in_thread, (void *)(draw(99, 1, size - 8) & ~7ul));
        pthread_join(thread, NULL);
    }
    // A greater promise is not easier to keep.
    const char *acknowledged = getenv("PX86_ACK");
    if (mix(number + 8) % 3 == 0 && acknowledged && strtoull(acknowledged, NULL, 10) > taken % 4)
        return 1;
    return mix(taken) % moduli[mix(number + 7) % 5] == 0;
}

static void make_file(const char *path, const uint8_t *memory, size_t bytes)
{
    int to = open(path, O_RDWR | O_CREAT | O_TRUNC, 0666);
    if (write(to, memory, bytes) != (ssize_t)bytes)
        exit(3);
    close(to);
}

static int batch(char **words, size_t bytes)
{
    uint64_t acknowledged;
    uint8_t *memory = malloc(bytes);
    char text[32];
    while (fread(&acknowledged, sizeof acknowledged, 1, stdin) == 1 && fread(memory, bytes, 1, stdin) == 1) {
        int status;
        make_file(words[1], memory, bytes);
        snprintf(text, sizeof text, "%lu", acknowledged);
        setenv("PX86_ACK", text, 1);
        fflush(stdout);
        pid_t child = fork();
        if (child == 0)
            _exit(run(words));
        waitpid(child, &status, 0);
        putchar(WIFEXITED(status) ? '0' + WEXITSTATUS(status) : 'x');
    }
    putchar('\n');
    free(memory);
    return 0;
}

int main(int count, char **words)
{
    // Memories of tools/recording-model have 256 bytes.
    if (count >= 4 && !strcmp(words[1], "batch"))
        return batch(words + 2, 256);
    if (count >= 4 && !strcmp(words[1], "recover"))
        return recover(words + 2);
    if (count == 5 && !strcmp(words[1], "is"))
        return is_as(words + 2);
    return count < 3 ? 2 : run(words + 1);
}

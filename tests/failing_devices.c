#define _GNU_SOURCE
#include <dlfcn.h>
#include <errno.h>
#include <fcntl.h>
#include <stdlib.h>
#include <string.h>
#include <sys/syscall.h>
#include <unistd.h>

enum { LARGEST_READ = 7, LARGEST_WRITE = 1 };

/* A run that takes longer than 60 seconds is ended. */
__attribute__((constructor)) static void begin(void) {
    alarm(60);
}

/* Writes down a call. */
static void note(char call) {
    int file = open(getenv("CALLS"), O_WRONLY | O_APPEND);
    if (file < 0 || syscall(SYS_write, file, &call, 1) != 1) _exit(99);
    close(file);
}

/* Whether the call of this number, counted from 0, is the one that a variable names, or one from that on, where a plus
   stands behind the number. */
static int is_named(const char *variable, long number) {
    const char *wanted = getenv(variable);
    if (!wanted) return 0;
    return strchr(wanted, '+') ? number >= atol(wanted) : number == atol(wanted);
}

/* Fails, as a call that is interrupted once, or as one of a device that is broken. */
static ssize_t fail(const char *variable) {
    errno = strchr(getenv(variable), '+') ? EIO : EINTR;
    return -1;
}

ssize_t read(int file, void *buffer, size_t size) {
    static long count;
    long number = __atomic_fetch_add(&count, 1, __ATOMIC_SEQ_CST);
    note('r');
    if (is_named("FAILING_READ", number)) return fail("FAILING_READ");
    return syscall(SYS_read, file, buffer, size < LARGEST_READ ? size : LARGEST_READ);
}

ssize_t write(int file, const void *bytes, size_t size) {
    static long count;
    if (file != 1) return syscall(SYS_write, file, bytes, size);
    long number = __atomic_fetch_add(&count, 1, __ATOMIC_SEQ_CST);
    note('w');
    if (is_named("FAILING_WRITE", number)) return fail("FAILING_WRITE");
    if (is_named("IDLE_WRITE", number)) return 0;
    return syscall(SYS_write, file, bytes, size < LARGEST_WRITE ? size : LARGEST_WRITE);
}

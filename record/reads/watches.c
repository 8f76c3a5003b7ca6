#include "watches.h"

#include <signal.h>
#include <stddef.h>
#include <sys/prctl.h>
#include <sys/ptrace.h>
#include <sys/wait.h>
#include <unistd.h>

#include "fail.h"
#include "words.h"

enum { STATUS = 6, CONTROL = 7 };
// In the control register: a watch is on, and is of eight bytes that are read or stored.
enum { IS_ON = 1, READ_OR_STORE_OF_8 = 0xb };

static long set_debug(pid_t pid, int number, uint64_t value)
{
    size_t place = offsetof(struct user, u_debugreg) + sizeof(uint64_t) * (size_t)number;
    return ptrace(PTRACE_POKEUSER, pid, place, value);
}

static uint64_t get_debug(pid_t pid, int number)
{
    size_t place = offsetof(struct user, u_debugreg) + sizeof(uint64_t) * (size_t)number;
    return (uint64_t)ptrace(PTRACE_PEEKUSER, pid, place, NULL);
}

static uint64_t control_of(int number)
{
    return (uint64_t)IS_ON << 2 * number | (uint64_t)READ_OR_STORE_OF_8 << (16 + 4 * number);
}

// Watches one more word. Answers false if there is no register for it.
static bool watch(struct task *task, uint64_t word, uint64_t address, uint64_t *control)
{
    if (task->watch_count == WATCHES || set_debug(task->pid, task->watch_count, address))
        return false;
    *control |= control_of(task->watch_count);
    task->watched[task->watch_count++] = word;
    return true;
}

bool set_watches(struct task *task)
{
    uint64_t control = 0;
    bool are_enough = true;
    set_debug(task->pid, CONTROL, 0);
    task->watch_count = 0;
    for (int i = 0; i < task->memory->map_count; i++) {
        const struct map *map = &task->memory->maps[i];
        uint64_t length = map->end - map->start;
        for (size_t number = 0; number < asked_count() && are_enough; number++) {
            uint64_t word = asked_word(number);
            if (word >= map->offset && word - map->offset < length && !is_read(word))
                are_enough = watch(task, word, map->start + (word - map->offset), &control);
        }
    }
    if (are_enough && (!control || !set_debug(task->pid, CONTROL, control)))
        return true;
    task->watch_count = 0;
    return false;
}

bool take_watches(struct task *task)
{
    uint64_t status = task->watch_count ? get_debug(task->pid, STATUS) & ((1u << WATCHES) - 1) : 0;
    if (!status)
        return false;
    for (int i = 0; i < task->watch_count; i++)
        if (status >> i & 1) {
            count_trap(task->watched[i]);
            read_word(task->watched[i]);
        }
    set_debug(task->pid, STATUS, 0);
    set_watches(task);
    return true;
}

void take_fault_beside_watches(struct task *task, int signal)
{
    siginfo_t info;
    bool is_fault = signal == SIGSEGV || signal == SIGBUS || signal == SIGFPE || signal == SIGILL;
    if (!is_fault || !task->watch_count || ptrace(PTRACE_GETSIGINFO, task->pid, NULL, &info) || info.si_code <= 0)
        return;
    for (int i = 0; i < task->watch_count; i++)
        read_word(task->watched[i]);
    set_watches(task);
}

// ---- whether they work

static volatile uint64_t tried;

// It ends with its tracer, should that be killed now: it holds the ends of its pipes.
static void read_tried(pid_t tracer)
{
    prctl(PR_SET_PDEATHSIG, SIGKILL);
    if (getppid() != tracer)
        _exit(0);
    ptrace(PTRACE_TRACEME, 0, NULL, NULL);
    raise(SIGSTOP);
    _exit((int)tried);
}

bool watches_work(void)
{
    int status;
    bool work = false;
    pid_t tracer = getpid(), child = fork();
    if (child < 0)
        fail("there is no other process");
    if (child == 0)
        read_tried(tracer);
    if (waitpid(child, &status, 0) == child && WIFSTOPPED(status) && !set_debug(child, 0, (uint64_t)&tried) &&
        !set_debug(child, CONTROL, control_of(0)) && !ptrace(PTRACE_CONT, child, NULL, NULL))
        work = waitpid(child, &status, 0) == child && WIFSTOPPED(status) && WSTOPSIG(status) == SIGTRAP &&
               (get_debug(child, STATUS) & 1);
    if (!WIFEXITED(status)) {
        kill(child, SIGKILL);
        waitpid(child, &status, 0);
    }
    return work;
}

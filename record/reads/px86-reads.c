// px86-reads runs a checker on a file, and says which of some words of the file it reads before it has overwritten them, in
// the order of first reading. It is a server: requests are lines of standard input, and answers lines of standard output.
//
//   words OFFSET..              the words that are asked of from now on, hexadecimal, ascending
//   run NUMBER PATH WORDS..     runs WORDS on the file PATH, with NUMBER in PX86_ACK (`-`: with none): one word is a command of
//                               the shell, and more are a program and its arguments. PATH and WORDS are hexadecimal bytes
//     read OFFSET               a word is read
//     all WHY                   it does what is not followed: all other words are taken as read
//     end STATUS TRAPS SAID     how it ended: its exit status, `-` and a signal, or `late`; how many accesses were looked at;
//                               and the end of what it wrote, hexadecimal, behind an `=`
//
// Where few words are asked, debug registers watch them. Otherwise the pages of the file that have such words are mapped
// without access. Each access to them traps; its instruction is decoded, noted, and run alone with the page open. The
// reads of system calls are known by their arguments. What is not understood reads all. Children are followed.
//
// It is no part of what is proved of px86.
#define _GNU_SOURCE
#include <errno.h>
#include <fcntl.h>
#include <getopt.h>
#include <sched.h>
#include <signal.h>
#include <stdio.h>
#include <stdlib.h>
#include <string.h>
#include <sys/mman.h>
#include <sys/personality.h>
#include <sys/ptrace.h>
#include <sys/wait.h>
#include <unistd.h>

#include "accesses.h"
#include "calls.h"
#include "clock.h"
#include "fail.h"
#include "operands.h"
#include "tasks.h"
#include "watches.h"
#include "words.h"

enum { MOST_SAID = 4000, MOST_WORDS = 200 };

static double seconds = 60;

// ---- the checker

// What runs as the checker: a program, and its words up to a NULL.
struct command {
    const char *program;
    char *words[MOST_WORDS + 1];
};

// Becomes the checker, once its tracer has written to GO.
static void become_checker(const struct command *command, const char *acknowledged, int output, int go)
{
    char byte;
    setsid();
    personality(ADDR_NO_RANDOMIZE);
    if (strcmp(acknowledged, "-"))
        setenv("PX86_ACK", acknowledged, 1);
    int null = open("/dev/null", O_RDONLY);
    dup2(null, STDIN_FILENO);
    dup2(output, STDOUT_FILENO);
    dup2(output, STDERR_FILENO);
    if (read(go, &byte, 1) != 1 || !filter_calls())
        _exit(126);
    execvp(command->program, command->words);
    // As a shell says it.
    _exit(errno == ENOENT ? 127 : 126);
}

static pid_t start_checker(const struct command *command, const char *acknowledged, int output)
{
    long options = PTRACE_O_EXITKILL | PTRACE_O_TRACESYSGOOD | PTRACE_O_TRACECLONE | PTRACE_O_TRACEFORK | PTRACE_O_TRACEVFORK |
                   PTRACE_O_TRACEEXEC | PTRACE_O_TRACESECCOMP;
    int go[2];
    if (pipe2(go, O_CLOEXEC))
        fail("there is no pipe: %s", strerror(errno));
    pid_t pid = fork();
    if (pid < 0)
        fail("there is no process for a checker: %s", strerror(errno));
    if (pid == 0) {
        close(go[1]);
        become_checker(command, acknowledged, output, go[0]);
    }
    close(go[0]);
    if (ptrace(PTRACE_SEIZE, pid, NULL, options)) {
        int error = errno;
        kill(pid, SIGKILL);
        fail("a checker cannot be traced: %s", strerror(error));
    }
    // It waits, so nothing of it changes while it is looked at.
    give_memory(add_task(pid));
    if (write(go[1], "g", 1) != 1)
        fail("a checker cannot be started: %s", strerror(errno));
    close(go[1]);
    return pid;
}

// ---- stops

static void go_on(struct task *task, int signal)
{
    if (!signal && task->late_signal) {
        signal = task->late_signal;
        task->late_signal = 0;
    }
    ptrace(looks_at_calls(task) ? PTRACE_SYSCALL : PTRACE_CONT, task->pid, NULL, signal);
}

static void begin_child(struct task *child)
{
    if (child->memory->is_watched && !set_watches(child))
        read_all("debug registers are not enough for its children");
    child->is_held = false;
    go_on(child, 0);
}

// A task has begun another, or another program.
static void take_event(struct task *task, int event)
{
    unsigned long message = 0;
    ptrace(PTRACE_GETEVENTMSG, task->pid, NULL, &message);
    if (event == PTRACE_EVENT_EXEC) {
        struct task *former = (pid_t)message == task->pid ? NULL : find_task((pid_t)message);
        if (former)
            forget_task(former);
        give_memory(task);
    } else if (event == PTRACE_EVENT_FORK || event == PTRACE_EVENT_VFORK || event == PTRACE_EVENT_CLONE) {
        struct task *child = find_task((pid_t)message);
        bool was_held = child && child->is_held;
        if (!child)
            child = add_task((pid_t)message);
        give_memory_of(child, task, event == PTRACE_EVENT_VFORK || task->child_shares);
        if (was_held)
            begin_child(child);
        else
            child->is_held = true;
    }
    task->child_shares = false;
}

// A stop of the group, or the first of a child.
static void take_group_stop(struct task *task, int signal)
{
    if (task->is_held)
        begin_child(task);
    else if (signal == SIGSTOP || signal == SIGTSTP || signal == SIGTTIN || signal == SIGTTOU)
        ptrace(PTRACE_LISTEN, task->pid, NULL, NULL);
    else
        go_on(task, 0);
}

static void take_stop(struct task *task, int status)
{
    int signal = WSTOPSIG(status), event = status >> 16;
    if (event == PTRACE_EVENT_STOP) {
        take_group_stop(task, signal);
        return;
    }
    if (event == PTRACE_EVENT_SECCOMP)
        take_filtered_call(task);
    else if (event)
        take_event(task, event);
    else if (signal == (SIGTRAP | 0x80))
        take_call(task);
    else if (!(signal == SIGTRAP && take_watches(task)) && !(signal == SIGSEGV && take_fault(task))) {
        take_fault_beside_watches(task, signal);
        go_on(task, signal);
        return;
    }
    go_on(task, 0);
}

// Follows the checker to its end. Answers how it ended, as `waitpid` says it, or -1 if it is late.
static int follow(pid_t checker)
{
    int status;
    while (!is_late()) {
        pid_t pid = waitpid(-1, &status, __WALL);
        if (pid < 0 && errno == EINTR)
            continue;
        if (pid < 0)
            fail("the checker is lost: %s", strerror(errno));
        struct task *task = find_task(pid);
        if (!WIFSTOPPED(status)) {
            if (pid == checker)
                return status;
            if (task)
                forget_task(task);
        } else if (!task) {
            // Its parent's event comes later.
            add_task(pid)->is_held = true;
        } else {
            take_stop(task, status);
        }
    }
    return -1;
}

// ---- requests

static void print_end(int status, int output)
{
    uint8_t said[MOST_SAID];
    off_t size = lseek(output, 0, SEEK_END), from = size > MOST_SAID ? size - MOST_SAID : 0;
    ssize_t count = pread(output, said, sizeof said, from);
    if (status == -1)
        printf("end late");
    else
        printf("end %d", WIFEXITED(status) ? WEXITSTATUS(status) : -WTERMSIG(status));
    printf(" %lu =", all_traps());
    for (ssize_t i = 0; i < count; i++)
        printf("%02x", said[i]);
    putchar('\n');
    fflush(stdout);
}

static void run(const char *acknowledged, const char *path, const struct command *command)
{
    if (!follow_file(path))
        fail("%s: %s", path, strerror(errno));
    begin_words();
    int output = memfd_create("said", MFD_CLOEXEC);
    if (output < 0)
        fail("there is no file for what a checker says: %s", strerror(errno));
    start_clock(seconds);
    pid_t checker = start_checker(command, acknowledged, output);
    int status = follow(checker);
    kill_tasks(checker);
    start_clock(0);
    print_end(status, output);
    close(output);
}

// Turns hexadecimal digits into the bytes that they are, in place.
static void read_hexadecimal(char *text)
{
    char *to = text;
    unsigned byte;
    for (const char *from = text; sscanf(from, "%2x", &byte) == 1; from += 2)
        *to++ = (char)byte;
    *to = 0;
}

static void take_words(char *list)
{
    size_t count = 0, room = 64;
    uint64_t *offsets = allocate(room, sizeof *offsets);
    for (char *word = strtok(list, " "); word; word = strtok(NULL, " ")) {
        if (count == room) {
            room *= 2;
            offsets = realloc(offsets, room * sizeof *offsets);
            if (!offsets)
                fail("there is no memory for %zu words", room);
        }
        offsets[count++] = strtoull(word, NULL, 16);
    }
    ask_words(offsets, count);
    free(offsets);
}

// Takes the words that are left of a request. One by itself is for the shell. Answers false if there is none.
static bool take_command(struct command *command)
{
    static char name[] = "sh", option[] = "-c";
    size_t count = 0;
    for (char *word = strtok(NULL, " "); word; word = strtok(NULL, " ")) {
        if (count == MOST_WORDS)
            fail("a checker has more than %d words", MOST_WORDS);
        read_hexadecimal(word);
        command->words[count++] = word;
    }
    if (count == 1)
        *command = (struct command){"/bin/sh", {name, option, command->words[0]}};
    else
        command->program = command->words[0];
    return count > 0;
}

static void take_request(char *line)
{
    line[strcspn(line, "\n")] = 0;
    if (!strncmp(line, "words", 5)) {
        take_words(line + 5);
        return;
    }
    char *kind = strtok(line, " "), *acknowledged = strtok(NULL, " "), *path = strtok(NULL, " ");
    struct command command = {0};
    if (!take_command(&command) || strcmp(kind, "run"))
        fail("this is no request: %s", line);
    read_hexadecimal(path);
    run(acknowledged, path, &command);
}

// A trap is fastest where the tracer and the checker have one processor.
static void stay_on(int processor)
{
    cpu_set_t set;
    CPU_ZERO(&set);
    CPU_SET((size_t)processor, &set);
    sched_setaffinity(0, sizeof set, &set);
}

int main(int count, char **words)
{
    static const struct option options[] = {
        {"time", required_argument, NULL, 't'},      {"processor", required_argument, NULL, 'p'},
        {"registers", required_argument, NULL, 'r'}, {"traps", required_argument, NULL, 'n'},
        {NULL, 0, NULL, 0},
    };
    bool may_watch = true;
    for (int option; (option = getopt_long(count, words, "", options, NULL)) != -1;) {
        if (option == 't')
            seconds = atof(optarg);
        else if (option == 'p')
            stay_on(atoi(optarg));
        else if (option == 'r')
            may_watch = atoi(optarg);
        else if (option == 'n')
            set_most_traps((unsigned)atoi(optarg));
        else
            return 3;
    }
    start_operands();
    mean_watches(may_watch && watches_work());
    char *line = NULL;
    size_t room = 0;
    while (getline(&line, &room, stdin) > 0)
        take_request(line);
    free(line);
    return 0;
}

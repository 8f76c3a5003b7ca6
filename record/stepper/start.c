#define _GNU_SOURCE
#include "start.h"

#include <errno.h>
#include <fcntl.h>
#include <string.h>
#include <sys/personality.h>
#include <sys/ptrace.h>
#include <sys/user.h>
#include <sys/wait.h>
#include <unistd.h>

#include "options.h"
#include "program.h"
#include "threads.h"

// In the new process: waits until it is traced, and becomes the program. If it cannot, it says why.
__attribute__((noreturn)) static void become_program(int traced, int failure)
{
    char byte;
    // The same addresses each time, where this is allowed.
    personality(ADDR_NO_RANDOMIZE);
    if (read(traced, &byte, 1) == 0) {
        execvp(options.command[0], options.command);
        if (write(failure, &errno, sizeof errno) < 0)
            _exit(126);
    }
    _exit(127);
}

static void trace(void)
{
    long events = PTRACE_O_EXITKILL | PTRACE_O_TRACESYSGOOD | PTRACE_O_TRACECLONE | PTRACE_O_TRACEFORK |
                  PTRACE_O_TRACEVFORK | PTRACE_O_TRACEEXEC | PTRACE_O_TRACEEXIT;
    if (ptrace(PTRACE_SEIZE, program, NULL, events))
        stop(FAILED, "ptrace is refused: %s (in a container, allow it with --cap-add=SYS_PTRACE)", strerror(errno));
}

void start_program(void)
{
    int traced[2], failure[2], status, why;
    if (pipe2(traced, O_CLOEXEC) || pipe2(failure, O_CLOEXEC))
        stop(FAILED, "a pipe: %s", strerror(errno));
    program = fork();
    if (program < 0)
        stop(FAILED, "fork: %s", strerror(errno));
    if (program == 0) {
        close(traced[1]);
        become_program(traced[0], failure[1]);
    }
    close(failure[1]);
    trace();
    close(traced[1]);
    while (wait_for(program, &status, 0), status >> 8 != (SIGTRAP | PTRACE_EVENT_EXEC << 8)) {
        if (WIFEXITED(status) && read(failure[0], &why, sizeof why) == sizeof why)
            stop(FAILED, "%s: %s", options.command[0], strerror(why));
        if (WIFEXITED(status) || WIFSIGNALED(status))
            stop(FAILED, "%s did not start", options.command[0]);
        ptrace(PTRACE_CONT, program, NULL, 0);
    }
    close(traced[0]);
    close(failure[0]);
    open_memory();
}

void run_to(uint64_t address)
{
    static const uint8_t breakpoint = 0xcc;
    struct user_regs_struct registers;
    uint8_t byte;
    int status;
    if (!read_memory(address, &byte, 1))
        stop(FAILED, "the entry point of the program cannot be read");
    write_memory(address, &breakpoint, 1);
    do {
        ptrace(PTRACE_CONT, program, NULL, NULL);
        wait_for(program, &status, 0);
        if (WIFEXITED(status) || WIFSIGNALED(status))
            stop(FAILED, "the program ended before its entry point");
    } while (status >> 8 != SIGTRAP);
    write_memory(address, &byte, 1);
    ptrace(PTRACE_GETREGS, program, NULL, &registers);
    registers.rip = address;
    ptrace(PTRACE_SETREGS, program, NULL, &registers);
}

// The program that is recorded, as /proc shows it, and how the recorder ends.
#ifndef PX86_PROGRAM_H
#define PX86_PROGRAM_H

#include <limits.h>
#include <stdbool.h>
#include <stdint.h>
#include <stdio.h>
#include <sys/types.h>

// The statuses of the recorder. REFUSED: the program does something that cannot be recorded. NOT_PLAYED: a thread cannot run
// where --schedule has it run. FAILED: anything else.
enum { RECORDED = 0, REFUSED = 2, FAILED = 3, NOT_PLAYED = 4 };

extern pid_t program; // its process, or 0

// Says why on standard error, kills the program, and ends the recorder with this status.
__attribute__((noreturn, format(printf, 2, 3)))
void stop(int status, const char *format, ...);

// Opens the program's memory. It is another memory after each exec.
void open_memory(void);
bool read_memory(uint64_t address, void *to, size_t count);
// As many of these bytes as can be read, from the first on.
size_t read_memory_up_to(uint64_t address, void *to, size_t count);
void write_memory(uint64_t address, const void *from, size_t count);

// A line of /proc/PROCESS/maps.
struct mapping {
    uint64_t start, end, offset, inode;
    unsigned major, minor;
    bool shared, executable;
    int protection; // as mprotect takes it
    char path[PATH_MAX];
};
FILE *open_mappings(pid_t process);
bool next_mapping(FILE *mappings, struct mapping *mapping);

// The path of the program's own file.
const char *program_path(void);
// Where a symbol of the program is, and its size. Stops if there is no such symbol, or more than one.
void find_symbol(const char *name, uint64_t *address, uint64_t *size);
// Where the program itself begins, behind the dynamic loader.
uint64_t entry_point(void);

// A thread's state, as a letter (R runs, S sleeps, Z is dead and not yet waited for), or 0 if there is no such thread.
char thread_state(pid_t thread);
bool is_thread_of_program(pid_t thread);
// The words that a process was started with, one blank between them.
void read_command(pid_t process, char *command, size_t size);
bool catches(pid_t thread, int signal);
bool ignores(pid_t thread, int signal);
// Whether it has forbidden itself some system calls.
bool is_filtered(pid_t thread);
// The file that a descriptor of the program names. False if there is none.
struct stat;
bool file_of_descriptor(int descriptor, struct stat *file);
// The program's next descriptor behind this one, ascending. It begins with -1.
bool next_descriptor(int *descriptor);
// What /proc tells of a descriptor of the program: where it reads and writes next, and its flags, as open has them.
struct descriptor {
    uint64_t position;
    unsigned flags;
};
bool state_of_descriptor(int number, struct descriptor *state);
// The path of what a descriptor of the program names; empty, if there is none.
const char *path_of_descriptor(int number);

#endif

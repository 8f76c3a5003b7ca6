// The processes of a checker, and where each has mapped the file.
#ifndef PX86_TASKS_H
#define PX86_TASKS_H

#include <stdbool.h>
#include <stdint.h>
#include <sys/ptrace.h>
#include <sys/types.h>
#include <sys/user.h>

// Behind sys/ptrace.h, with which it shares names.
#include <linux/ptrace.h>

enum { MOST_TASKS = 256, MOST_MAPS = 64, WATCHES = 4 };

// Addresses START up to END are the file from an offset on.
struct map {
    uint64_t start, end, offset;
    int protection; // what the checker has asked for
    bool is_shared;
};

// An address space. Processes of vfork have one together.
struct memory {
    int users;
    struct map maps[MOST_MAPS];
    int map_count;
    bool is_closed;    // some pages of its maps may have no access
    bool is_watched;   // debug registers watch the asked words, and all pages are open
    uint64_t call;     // the address of a `syscall` instruction, or 0
    int bytes;         // /proc/PID/mem
};

struct task {
    pid_t pid; // 0: there is no task here
    struct memory *memory;
    bool is_held;       // it has stopped before its parent told of it
    bool sees;          // it may have a descriptor of the file: all its system calls are looked at
    bool wants_exit;    // the end of a system call is to be looked at
    bool is_made_again; // a system call is to be made again, with all pages open
    bool is_opened;     // all pages are open for one system call
    bool child_shares;  // its next child has the same memory
    struct ptrace_syscall_info entry;
    uint64_t watched[WATCHES];
    int watch_count;
    int late_signal; // to be given to it when it goes on
};

// The file is the one of this path. Answers false if there is none.
bool follow_file(const char *path);
bool is_file(const struct task *task, int descriptor);

struct task *find_task(pid_t pid);
struct task *add_task(pid_t pid);
void forget_task(struct task *task);
void kill_tasks(pid_t group);
// The memory of a new program.
void give_memory(struct task *task);
// The memory of a child: its parent's, or a copy of it.
void give_memory_of(struct task *child, const struct task *parent, bool is_shared);

void get_registers(const struct task *task, struct user_regs_struct *registers);
void set_registers(const struct task *task, const struct user_regs_struct *registers);
ssize_t read_memory(const struct task *task, void *bytes, size_t count, uint64_t address);
void write_memory(const struct task *task, const void *bytes, size_t count, uint64_t address);
// Waits until a task stops. Answers false if it has ended, or time is over.
bool wait_for(const struct task *task, int *status);

struct map *map_at(struct memory *memory, uint64_t address);
uint64_t offset_in(const struct map *map, uint64_t address);
void add_map(struct task *task, const struct map *map);
void cut_maps(struct memory *memory, uint64_t start, uint64_t end);

// Sets the access of one page, by a system call that the task is made to do.
void open_page(struct task *task, const struct map *map, uint64_t address);
void close_page(struct task *task, uint64_t address);
// Opens all pages, or closes those of which something may be learned.
void open_all(struct task *task);
void close_unknown(struct task *task);

#endif

// The log: see LOG.md.
#ifndef PX86_LOG_H
#define PX86_LOG_H

#include "threads.h"

// Before the program runs: the log can be written, and files of an earlier recording are gone.
void open_log(void);
// The first lines, and LOG.before.
void begin_log(void);
void log_thread(const struct thread *thread);
// A line that begins with a word, the thread's number and its place.
__attribute__((format(printf, 3, 4)))
void log_event(const struct thread *thread, const char *word, const char *format, ...);
// A variable of the program at this address points to this offset of the region.
void log_pointer(uint64_t address, uint64_t offset);
// What the program has mapped as code is looked up again.
void note_code(void);
// LOG.after.
void log_memory(void);
// A line of LOG.turns: who runs next of the threads that can, and who would by itself; and where the last one is, if it
// could go on.
void log_turn(const struct thread *last, const struct thread *chosen, const struct thread *by_itself,
              struct thread *const *able, size_t count, bool can_go_on);
// The last line.
void end_log(int status, uint64_t steps);
// The last line of a recording that cannot go on, and the end of the recorder.
__attribute__((noreturn, format(printf, 2, 3)))
void refuse(const struct thread *thread, const char *format, ...);

#endif

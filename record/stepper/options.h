// The options of the command line.
#ifndef PX86_OPTIONS_H
#define PX86_OPTIONS_H

#include <stdbool.h>
#include <stdint.h>

struct options {
    const char *log;
    const char *file, *symbol; // the region: one of them
    bool begin;                // recording begins at the mark
    const char *begin_at, *end_at, *ack_at; // functions: see points.h
    bool step;                 // all instructions are stepped
    bool skip_flushes;         // flushes are recorded, and not run
    int acknowledging;         // a write to this descriptor acknowledges, or -1
    uint64_t seed;             // of the choice of threads
    const char *schedule;      // in which order threads run (schedule.h), or NULL
    unsigned quantum;          // the most instructions that a thread runs in a row, if there are several
    unsigned seconds;          // after which the program is killed, or 0
    char **command;
};
extern struct options options;

#endif

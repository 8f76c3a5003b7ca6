// px86-record runs a program, and writes what it does to a region of memory. LOG.md has the form of the log, and why it has
// all. The region is a file that the program maps, or a symbol of the program. Before the region is mapped (with --begin,
// before the mark BEGIN of px86-mark.h) and after the mark END nothing is looked at.
//
// It is no part of what is proved of px86.
#include <errno.h>
#include <getopt.h>
#include <stdio.h>
#include <stdlib.h>
#include <string.h>

#include "decode.h"
#include "log.h"
#include "options.h"
#include "program.h"
#include "region.h"
#include "schedule.h"
#include "steps.h"
#include "threads.h"

struct options options = {.acknowledging = -1, .quantum = 100};

static const char usage[] =
    "px86-record -o LOG (--file PATH | --symbol NAME) [OPTIONS] -- PROGRAM ARGS..\n"
    "\n"
    "Runs PROGRAM. What it does to a region of memory is written to LOG, and the bytes of the region before and after to\n"
    "LOG.before and LOG.after.\n"
    "\n"
    "  -o LOG            where to write\n"
    "  --file PATH       the region is this file, from when PROGRAM maps it (MAP_SHARED), or writes to it; may be given\n"
    "                    again, for more files\n"
    "  --symbol NAME     the region is this symbol of PROGRAM\n"
    "  --begin           recording begins at the mark PX86_BEGIN of px86-mark.h\n"
    "  --begin-at NAME   recording begins when the function NAME, of PROGRAM or a library of it, returns\n"
    "  --end-at NAME     recording ends when the function NAME is called\n"
    "  --ack-fd N        a write to the descriptor N acknowledges\n"
    "  --ack-at NAME     each return of the function NAME acknowledges\n"
    "  --seed S          numbers the random choices of the next thread\n"
    "  --quantum Q       a thread runs up to Q instructions in a row, if there are several (100 if left out); what it\n"
    "                    runs at full speed counts as 25\n"
    "  --schedule WORDS  the order of threads: TURN:THREAD .., or random:SEED:CHANGES:TURNS. The turns are written to\n"
    "                    LOG.turns (LOG.md)\n"
    "  --time SECONDS    PROGRAM is killed after so long (status 3)\n"
    "  --step            each instruction is stepped, and PROGRAM never runs at full speed\n"
    "  --skip-flushes    clflush, clflushopt and clwb are recorded, and not run\n"
    "\n"
    "Status 0: recorded. 2: PROGRAM does something that cannot be recorded. 4: a thread cannot run at its turn.\n"
    "3: anything else.\n";

static uint64_t number(const char *name, const char *text, uint64_t least, uint64_t most)
{
    char *end;
    errno = 0;
    uint64_t value = strtoull(text, &end, 10);
    if (*text < '0' || *text > '9' || *end || errno || value < least || value > most)
        stop(FAILED, "--%s: %s is no number from %lu to %lu", name, text, least, most);
    return value;
}

static void read_option(int option, const char *name, const char *value)
{
    switch (option) {
    case 'o':
        options.log = value;
        break;
    case 'f':
        options.file = value;
        choose_file(value);
        break;
    case 's':
        options.symbol = value;
        break;
    case 'b':
        options.begin = true;
        break;
    case 'k':
        options.skip_flushes = true;
        break;
    case 'p':
        options.step = true;
        break;
    case 'B':
        options.begin_at = value;
        break;
    case 'E':
        options.end_at = value;
        break;
    case 'A':
        options.ack_at = value;
        break;
    case 'a':
        options.acknowledging = (int)number(name, value, 0, INT32_MAX);
        break;
    case 'e':
        options.seed = number(name, value, 0, UINT64_MAX);
        break;
    case 'S':
        options.schedule = value;
        read_schedule(value);
        break;
    case 'q':
        options.quantum = (unsigned)number(name, value, 1, UINT32_MAX);
        break;
    case 't':
        options.seconds = (unsigned)number(name, value, 1, INT32_MAX);
        break;
    case 'h':
        fputs(usage, stdout);
        exit(RECORDED);
    }
}

static void read_options(int count, char **words)
{
    static const struct option names[] = {
        {"file", 1, NULL, 'f'},     {"symbol", 1, NULL, 's'},   {"begin", 0, NULL, 'b'},        {"begin-at", 1, NULL, 'B'},
        {"end-at", 1, NULL, 'E'},   {"ack-fd", 1, NULL, 'a'},   {"ack-at", 1, NULL, 'A'},       {"seed", 1, NULL, 'e'},
        {"quantum", 1, NULL, 'q'},  {"time", 1, NULL, 't'},     {"skip-flushes", 0, NULL, 'k'}, {"step", 0, NULL, 'p'},
        {"schedule", 1, NULL, 'S'}, {"help", 0, NULL, 'h'},     {NULL, 0, NULL, 0}};
    int option, place = 0;
    while ((option = getopt_long(count, words, "+:o:h", names, &place)) != -1) {
        if (option == ':')
            stop(FAILED, "the value of %s is left out (see px86-record --help)", words[optind - 1]);
        if (option == '?')
            stop(FAILED, "%s is no option (see px86-record --help)", words[optind - 1]);
        read_option(option, names[place].name, optarg);
    }
    options.command = words + optind;
    if (!options.log)
        stop(FAILED, "-o LOG is left out (see px86-record --help)");
    if (!options.file == !options.symbol)
        stop(FAILED, "one of --file and --symbol is wanted (see px86-record --help)");
    if (optind == count)
        stop(FAILED, "PROGRAM is left out (see px86-record --help)");
}

int main(int count, char **words)
{
    read_options(count, words);
    open_log();
    start_decoder();
    int status = run_program();
    end_log(status, steps_done());
    return RECORDED;
}

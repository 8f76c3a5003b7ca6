#include "log.h"

#include <errno.h>
#include <stdarg.h>
#include <stdio.h>
#include <stdlib.h>
#include <string.h>
#include <unistd.h>

#include "code.h"
#include "frames.h"
#include "options.h"
#include "program.h"
#include "region.h"

static FILE *log_file, *turns_file;

static const char *beside_log(const char *ending)
{
    static char path[PATH_MAX];
    if (snprintf(path, sizeof path, "%s.%s", options.log, ending) >= (int)sizeof path)
        stop(FAILED, "%s: %s", options.log, strerror(ENAMETOOLONG));
    return path;
}

static void check_written(bool good)
{
    if (!good)
        stop(FAILED, "%s cannot be written: %s", options.log, strerror(errno));
}

static void close_log(void)
{
    bool good = !ferror(log_file) && (!turns_file || fclose(turns_file) == 0);
    check_written(fclose(log_file) == 0 && good);
}

void open_log(void)
{
    log_file = fopen(options.log, "we");
    if (!log_file)
        stop(FAILED, "%s cannot be written: %s", options.log, strerror(errno));
    fputs("px86-recording 1\n", log_file);
    unlink(beside_log("before"));
    unlink(beside_log("after"));
    unlink(beside_log("turns"));
    if (options.schedule) {
        turns_file = fopen(beside_log("turns"), "we");
        check_written(turns_file);
    }
}

// Of the first file LOG.ENDING, of the next LOG.ENDING2 ..
static void write_shadows(const char *ending)
{
    char numbered[32];
    write_shadow(0, beside_log(ending));
    for (unsigned i = 1; i < file_count(); i++) {
        snprintf(numbered, sizeof numbered, "%s%u", ending, i + 1);
        write_shadow(i, beside_log(numbered));
    }
}

void begin_log(void)
{
    fprintf(log_file, "region 0x%lx %s\n", end_of_file(0), region_name());
    for (uint64_t i = 1; i < file_count(); i++)
        fprintf(log_file, "file 0x%lx 0x%lx %s\n", i * FILE_ROOM, end_of_file(i * FILE_ROOM) - i * FILE_ROOM,
                name_of_file((unsigned)i));
    check_written(fflush(log_file) == 0);
    write_shadows("before");
}

void log_memory(void)
{
    write_shadows("after");
}

void log_thread(const struct thread *thread)
{
    fprintf(log_file, "thread %d\n", thread->number);
}

void log_pointer(uint64_t address, uint64_t offset)
{
    fprintf(log_file, "pointer 0x%lx 0x%lx\n", address, offset);
}

// ---- code

static struct mapping *code;
static size_t code_count;
static char own_path[PATH_MAX]; // of the program's own file

static bool is_noted(const struct mapping *mapping)
{
    for (size_t i = 0; i < code_count; i++)
        if (code[i].start == mapping->start && code[i].end == mapping->end && !strcmp(code[i].path, mapping->path))
            return true;
    return false;
}

void note_code(void)
{
    struct mapping mapping;
    FILE *mappings = open_mappings(program);
    strcpy(own_path, program_path());
    while (next_mapping(mappings, &mapping)) {
        if (!mapping.executable || !*mapping.path || is_noted(&mapping))
            continue;
        code = realloc(code, (code_count + 1) * sizeof *code);
        if (!code)
            stop(FAILED, "out of memory");
        code[code_count++] = mapping;
    }
    fclose(mappings);
}

// Whether an address is in the program's own code.
static bool is_own_code(uint64_t address)
{
    for (size_t i = 0; i < code_count; i++)
        if (address >= code[i].start && address < code[i].end)
            return !strcmp(code[i].path, own_path);
    return false;
}

// The program's own code first.
static void log_code(void)
{
    for (int own = 1; own >= 0; own--)
        for (size_t i = 0; i < code_count; i++)
            if ((strcmp(code[i].path, own_path) == 0) == own)
                fprintf(log_file, "map 0x%lx 0x%lx 0x%lx %s\n", code[i].start, code[i].end, code[i].offset,
                        code[i].path);
}

// ---- lines

// The registers of the thread before its instruction, as frames number them.
static struct frame frame_of(const struct thread *thread)
{
    const struct user_regs_struct *it = &thread->registers;
    return (struct frame){.values = {it->rax, it->rdx, it->rcx, it->rbx, it->rsi, it->rdi, it->rbp, it->rsp, it->r8,
                                     it->r9, it->r10, it->r11, it->r12, it->r13, it->r14, it->r15,
                                     thread->instruction.address},
                          .known = (1u << FRAME_REGISTERS) - 1,
                          .is_signal = true};
}

// Goes to the caller of a function of which no frames are told, as of clone3 at its system call: one that was called by its
// address, and has put nothing on the stack.
static bool leave_bare_function(struct frame *frame)
{
    enum { CALL = 0xe8, CALL_SIZE = 5, MOST_BYTES = 256 };
    uint64_t address = frame->values[FRAME_BACK], back;
    uint8_t call[CALL_SIZE];
    int32_t distance;
    if (!read_memory(frame->values[FRAME_STACK], &back, sizeof back) || !read_memory(back - CALL_SIZE, call, CALL_SIZE) ||
        call[0] != CALL)
        return false;
    memcpy(&distance, call + 1, sizeof distance);
    if (address - (back + (uint64_t)distance) >= MOST_BYTES)
        return false;
    frame->values[FRAME_BACK] = back;
    frame->values[FRAME_STACK] += sizeof back;
    frame->is_signal = false;
    return true;
}

// The return address of the innermost call that the program's own code made, or 0 if there is none, or the frames of
// the libraries do not lead to it.
static uint64_t caller(const struct thread *thread)
{
    enum { MOST_FRAMES = 1000 };
    struct frame frame = frame_of(thread);
    for (int i = 0; i < MOST_FRAMES; i++) {
        const struct object *object = object_of(frame.values[FRAME_BACK] - !frame.is_signal);
        if (!object || (!next_frame(object, &frame) && (i > 0 || !leave_bare_function(&frame))))
            return 0;
        if (!frame.is_signal && is_own_code(frame.values[FRAME_BACK] - 1))
            return frame.values[FRAME_BACK];
    }
    return 0;
}

static void log_place(FILE *file, const struct thread *thread)
{
    uint64_t address = thread->instruction.address;
    uint64_t back = is_own_code(address) ? 0 : caller(thread);
    fprintf(file, " 0x%lx", address);
    if (back)
        fprintf(file, "/0x%lx", back);
}

static void log_head(const struct thread *thread, const char *word)
{
    fprintf(log_file, "%s %d", word, thread->number);
    log_place(log_file, thread);
}

void log_event(const struct thread *thread, const char *word, const char *format, ...)
{
    va_list arguments;
    log_head(thread, word);
    va_start(arguments, format);
    if (*format)
        fputc(' ', log_file);
    vfprintf(log_file, format, arguments);
    va_end(arguments);
    fputc('\n', log_file);
}

static uint64_t turn_count;

void log_turn(const struct thread *last, const struct thread *chosen, const struct thread *by_itself,
              struct thread *const *able, size_t count, bool can_go_on)
{
    const char *where = !can_go_on ? "free" : last->is_at_region ? "here" : "elsewhere";
    fprintf(turns_file, "turn %lu %s %d %d", turn_count++, where, chosen->number, by_itself->number);
    for (size_t i = 0; i < count; i++)
        fprintf(turns_file, "%c%d", i == 0 ? ' ' : ',', able[i]->number);
    if (can_go_on) {
        log_place(turns_file, last);
        fprintf(turns_file, " %s", last->instruction.name);
    }
    fputc('\n', turns_file);
}

void end_log(int status, uint64_t steps)
{
    log_code();
    fprintf(log_file, "end %d %lu\n", status, steps);
    close_log();
}

void refuse(const struct thread *thread, const char *format, ...)
{
    char why[512];
    uint64_t address = thread->instruction.address;
    va_list arguments;
    va_start(arguments, format);
    vsnprintf(why, sizeof why, format, arguments);
    va_end(arguments);
    log_code();
    log_head(thread, "refused");
    fprintf(log_file, " %s %s\n", address ? thread->instruction.name : "?", why);
    close_log();
    if (address == 0)
        stop(REFUSED, "refused: %s", why);
    stop(REFUSED, "refused: thread %d at 0x%lx: %s: %s", thread->number, address, thread->instruction.name, why);
}

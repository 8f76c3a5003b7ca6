// What system calls write to the region's file, and read into the region; and the size of the file.
#ifndef PX86_WRITES_H
#define PX86_WRITES_H

#include "threads.h"

// Whether a system call writes bytes to the file of a descriptor, its first argument, and its result says how many.
bool is_write(long number);
// It has written so many bytes. Its file may be one of the region.
void record_write(struct thread *thread, uint64_t count);
// Whether a system call reads bytes to its second argument, and its result says how many.
bool is_read(long number);
// It has read so many bytes. Some of them may be in the region.
void record_read(struct thread *thread, uint64_t count);
// Whether a system call opens a file.
bool opens(long number);
// It has opened one. If it may be written to, and its name is that of the region's file and more, it is told of.
void record_opened(struct thread *thread, int descriptor);
// A system call is done: the files may have other sizes.
void record_sizes(struct thread *thread);

#endif

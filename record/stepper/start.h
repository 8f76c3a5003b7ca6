// How the program is started.
#ifndef PX86_START_H
#define PX86_START_H

#include <stdint.h>

// Starts the program of the command line, and traces it. Its first thread is stopped where the new program begins: in
// execve, before the dynamic loader.
void start_program(void);
// Runs this thread to an address that it has not reached. (Nothing else runs yet.)
void run_to(uint64_t address);

#endif

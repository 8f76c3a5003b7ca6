// Which thread runs next, while it is recorded.
#ifndef PX86_TURNS_H
#define PX86_TURNS_H

// Runs the threads in turns up to the end of the recording.
void run_in_turns(void);

#endif

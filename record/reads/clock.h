// How long a checker may take.
#ifndef PX86_CLOCK_H
#define PX86_CLOCK_H

#include <stdbool.h>

// From now on so many seconds; 0 stops the clock.
void start_clock(double seconds);
// Whether they are over. A wait is interrupted then.
bool is_late(void);

#endif

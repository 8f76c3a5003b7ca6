#include "clock.h"

#include <signal.h>
#include <stddef.h>
#include <sys/time.h>

// When the time is over the signal comes again and again, so that no wait misses it.
enum { MICROSECONDS_AGAIN = 20000 };

static volatile sig_atomic_t late;

static void on_alarm(int number)
{
    (void)number;
    late = 1;
}

void start_clock(double seconds)
{
    struct itimerval timer = {{0, 0}, {0, 0}};
    struct sigaction action = {.sa_handler = on_alarm};
    late = 0;
    if (seconds > 0) {
        timer.it_value.tv_sec = (time_t)seconds;
        timer.it_value.tv_usec = (suseconds_t)((seconds - (double)timer.it_value.tv_sec) * 1e6) + 1;
        timer.it_value.tv_sec += timer.it_value.tv_usec / 1000000;
        timer.it_value.tv_usec %= 1000000;
        timer.it_interval.tv_usec = MICROSECONDS_AGAIN;
    }
    sigaction(SIGALRM, &action, NULL);
    setitimer(ITIMER_REAL, &timer, NULL);
}

bool is_late(void)
{
    return late;
}

/* The clock of the benches of texts. */
#ifndef CLOCK_H
#define CLOCK_H

#include <time.h>

/* The processor's time in microseconds, to which a busy machine adds little. */
static double now(void) {
    struct timespec t;
    clock_gettime(CLOCK_PROCESS_CPUTIME_ID, &t);
    return (double)t.tv_sec * 1e6 + (double)t.tv_nsec * 1e-3;
}

#endif

/* The processor time of this process, which a busy machine does not lengthen
   by what it runs meanwhile. */

#define _POSIX_C_SOURCE 199309L
#include <time.h>

double processor_seconds(void) {
    struct timespec now;
    clock_gettime(CLOCK_PROCESS_CPUTIME_ID, &now);
    return (double)now.tv_sec + 1e-9 * (double)now.tv_nsec;
}

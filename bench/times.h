/* What the benches over texts share: the processor's time, and the least and the median of times. */
#include <stdlib.h>
#include <time.h>

static inline double now(void) {
    struct timespec time;
    clock_gettime(CLOCK_PROCESS_CPUTIME_ID, &time);
    return time.tv_sec + time.tv_nsec / 1e9;
}

static inline double least(const double *times, long count) {
    double found = times[0];
    for (long i = 1; i < count; i++) found = times[i] < found ? times[i] : found;
    return found;
}

static int later(const void *a, const void *b) {
    double x = *(const double *)a, y = *(const double *)b;
    return (x > y) - (x < y);
}

static inline double median(double *times, long count) {
    qsort(times, count, sizeof *times, later);
    return times[count / 2];
}

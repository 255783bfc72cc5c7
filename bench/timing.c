#include "timing.h"

#include <stdlib.h>
#include <time.h>

double now(void) {
    struct timespec t;
    clock_gettime(CLOCK_THREAD_CPUTIME_ID, &t);
    return 1e6 * (double)t.tv_sec + 1e-3 * (double)t.tv_nsec;
}

static int by_size(const void *a, const void *b) {
    double x = *(const double *)a, y = *(const double *)b;
    return (x > y) - (x < y);
}

double median(double *numbers, unsigned count) {
    qsort(numbers, count, sizeof *numbers, by_size);
    return numbers[count / 2];
}

void median_times(const struct question *q, unsigned calls, timed_call *const *call, struct effort effort, double *medians) {
    static double times[MOST_BY_TURNS][MOST_TURNS];
    unsigned turns = 0;
    for (double spent = 0; turns < effort.most && (turns < effort.least || spent < effort.budget); turns++)
        for (unsigned c = 0; c < calls; c++) {
            times[c][turns] = call[c](q);
            spent += times[c][turns];
        }
    for (unsigned c = 0; c < calls; c++)
        medians[c] = median(times[c], turns);
}

// Processor times in microseconds, and their medians.
#ifndef TIMING_H
#define TIMING_H

#include "calls.h"

// How often a call is made: at least and at most so many times, and in between until so many microseconds
// have passed.
struct effort {
    unsigned least, most;
    double budget;
};

// The processor time of the calling thread.
double now(void);

enum { MOST_TURNS = 301, MOST_BY_TURNS = 2 };

// The median of some numbers, which are put in order.
double median(double *numbers, unsigned count);

// Makes the calls by turns, and gives the median time of each.
void median_times(const struct question *q, unsigned calls, timed_call *const *call, struct effort effort, double *medians);

#endif

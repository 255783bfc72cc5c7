// Numbers that other programs find: networkx, and callgrind.
#ifndef OUTSIDE_H
#define OUTSIDE_H

#include "calls.h"

// The time of networkx's ranking, whose costs are held to those of the library; NAN where python3 has no networkx.
double time_networkx(const struct question *q);

// Runs a program of target/bench with these words under callgrind, and gives the instructions in its function
// `counted`. If there is a place for it, the program also prints a line `counted` with a number.
double collected(const struct question *q, const char *words, double *number);

// The instructions of one call of Rank with start 1 and goal n on the network of one column: `engine` is
// library or plain (see count.c).
double instructions(const struct question *q, uint32_t top, const char *engine);

#endif

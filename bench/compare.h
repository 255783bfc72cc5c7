// Answers held to each other. Where two differ, the program stops with a line that says so.
#ifndef COMPARE_H
#define COMPARE_H

#include "calls.h"

// Ends the program: what is wrong, and with which question.
_Noreturn void fail(const struct question *q, const char *what);

// Rank of the library and of the plain engine, called here from garbage in all lists: the same rows and
// costs, as many as are wanted, and cleared workspaces.
void hold_to_plain(const struct question *q);

// The library's last ranked list and igraph's: the same costs.
void hold_to_yen(const struct question *q);

// The library's last ranked list and a sum of its costs that was found elsewhere.
void hold_to_sum(const struct question *q, double sum);

// Robust's last answer and igraph's last ranking: the least figure of its paths up to the stopping rule, how
// many there are, and that the answer is settled where the rule holds before all are counted. `best` has the
// least cost in each column.
void hold_choice_to_yen(const struct question *q, const uint32_t *best);

#endif

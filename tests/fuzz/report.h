// What the run says: how far it is, what went wrong, and what was seen.
#ifndef REPORT_H
#define REPORT_H

#include <stdint.h>

// The calls of the header, in the order in which the report names them.
enum call { CHECK, BUILD, UNPACK, UPDATE, LABEL, SHORTEST, REGRET, RANK, ROBUST, SEARCH, FIND, FRESH, EVENT, CALLS };

// The number after the largest of the refusal table.
enum { ROWS = 21 };

// A run of so many calls from this seed begins.
void report_begin(uint64_t wanted, uint64_t seed);

// The next call is this one.
void report_call(enum call call);

// How many calls there were.
uint64_t report_calls(void);

// It gave this refusal, or 0.
void report_reply(uint32_t refusal);

// Says what is wrong with the answer or the lists of the call that runs, and ends the program with status 1.
#ifdef __GNUC__
__attribute__((noreturn, format(printf, 1, 2)))
#endif
void report_wrong(const char *format, ...);

// What a handler of signals may say of the call that runs.
void report_signal(int number, const void *address);

// The end of the run, with the bytes of stack that it took: what was seen. Ends the program with status 1 if a
// long run has not seen each row of the refusal table and a result of each call.
void report_end(unsigned long stack);

#endif

#include "report.h"

#include <inttypes.h>
#include <stdarg.h>
#include <stdbool.h>
#include <stdio.h>
#include <stdlib.h>
#include <string.h>
#include <unistd.h>

static const char *const names[CALLS] = {
    "vihrolom_check",    "vihrolom_build",  "vihrolom_unpack", "vihrolom_update", "vihrolom_label",
    "vihrolom_shortest", "vihrolom_regret", "vihrolom_rank",   "vihrolom_robust", "vihrolom_search",
    "vihrolom_find",     "vihrolom_week_fresh", "vihrolom_week_event",
};

// From so many calls on, each row and a result of each call must have been seen.
enum { LONG_RUN = 20000 };

static uint64_t wanted, seed, calls;
static enum call running;
static uint64_t results[CALLS], refusals[CALLS], rows[ROWS];
static bool terminal;

void report_begin(uint64_t run_wanted, uint64_t run_seed) {
    wanted = run_wanted;
    seed = run_seed;
    terminal = isatty(STDERR_FILENO) == 1;
}

void report_call(enum call call) {
    running = call;
    calls++;
    if (terminal && calls % 1000 == 0)
        fprintf(stderr, "\rfuzz: %" PRIu64 " of %" PRIu64 " calls", calls, wanted);
}

uint64_t report_calls(void) {
    return calls;
}

void report_reply(uint32_t refusal) {
    rows[refusal]++;
    if (refusal == 0)
        results[running]++;
    else
        refusals[running]++;
}

void report_wrong(const char *format, ...) {
    va_list words;
    va_start(words, format);
    fprintf(stderr, "%sfuzz: seed %" PRIu64 ", call %" PRIu64 ", %s: ", terminal ? "\n" : "", seed, calls, names[running]);
    vfprintf(stderr, format, words);
    fputc('\n', stderr);
    va_end(words);
    exit(1);
}

void report_signal(int number, const void *address) {
    char line[200];
    int length = snprintf(line, sizeof line, "\nfuzz: seed %" PRIu64 ", call %" PRIu64 ", %s: signal %d at address %p\n", seed, calls,
                          names[running], number, address);
    if (write(STDERR_FILENO, line, (size_t)length) < 0)
        return;
}

static void report_rows(void) {
    printf("refusals by number:");
    for (uint32_t row = 1; row < ROWS; row++)
        if (rows[row] != 0)
            printf(" %" PRIu32 ": %" PRIu64, row, rows[row]);
    printf("\n");
}

// Number 16 is no row.
static bool seen_all(void) {
    bool all = true;
    for (uint32_t row = 1; row < ROWS; row++)
        all = all && (row == 16 || rows[row] != 0);
    for (enum call call = 0; call < CALLS; call++)
        all = all && results[call] != 0;
    return all;
}

void report_end(unsigned long stack) {
    if (terminal)
        fprintf(stderr, "\r\033[K");
    for (enum call call = 0; call < CALLS; call++)
        printf("%-20s %8" PRIu64 " results %8" PRIu64 " refusals\n", names[call], results[call], refusals[call]);
    report_rows();
    printf("stack: %lu KiB, with the caller's own\n", (stack + 1023) / 1024);
    if (calls >= LONG_RUN && !seen_all()) {
        fprintf(stderr, "fuzz: a row of the refusal table or a result of a call was never seen\n");
        exit(1);
    }
    printf("fuzz: %" PRIu64 " calls from seed %" PRIu64 ", all as they must be\n", calls, seed);
}

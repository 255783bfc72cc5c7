#include "report.h"

#include <math.h>
#include <stdarg.h>
#include <stdbool.h>
#include <stdio.h>

static bool in_row;
static unsigned asked, missed;

void table(const char *title, const char *columns) {
    printf("\n## %s\n\n%s\n|", title, columns);
    for (const char *c = columns + 1; *c != 0; c++)
        if (*c == '|')
            printf("---|");
    end_row();
}

void cell(const char *format, ...) {
    va_list values;
    va_start(values, format);
    printf(in_row ? " " : "| ");
    vprintf(format, values);
    printf(" |");
    va_end(values);
    in_row = true;
}

void time_cell(double time) {
    if (isnan(time))
        cell("-");
    else
        cell(time < 10 ? "%.1f" : "%.0f", time);
}

void end_row(void) {
    printf("\n");
    fflush(stdout);
    in_row = false;
}

void due(double is, double least, double most, const char *format, ...) {
    asked++;
    if (least <= is && is <= most)
        return;
    va_list values;
    va_start(values, format);
    fprintf(stderr, "bench: ");
    vfprintf(stderr, format, values);
    fprintf(stderr, ": %.2f, due %g to %g\n", is, least, most);
    va_end(values);
    missed++;
}

int dues(void) {
    printf("\n%u ratios are due, %u of them are missed.\n", asked, missed);
    return missed != 0;
}

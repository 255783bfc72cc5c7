// What the benchmark prints: tables in Markdown, and whether their ratios are what is due.
#ifndef REPORT_H
#define REPORT_H

// Begins a table. The columns are one line with bars, as in Markdown.
void table(const char *title, const char *columns);

// The next cell of a row: formatted, or a time in microseconds with a dash for NAN.
void cell(const char *format, ...);
void time_cell(double time);
void end_row(void);

// The ratio that the words name is due in a range. One that is missed is told on standard error.
void due(double is, double least, double most, const char *format, ...);

// Tells how many ratios were due and how many are missed; returns the exit status of the program.
int dues(void);

#endif

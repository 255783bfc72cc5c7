// The tables of the benchmark. Each measures, holds the answers to each other and prints.
#ifndef TABLES_H
#define TABLES_H

void rank_table(void);
void robust_table(void);
void growth_tables(void);

#endif

// Prints the tables of the benchmark, in Markdown; bench/run puts the machine and the versions before them.
// With the word "version" it prints that of igraph alone.
#include "report.h"
#include "tables.h"
#include "yen.h"

#include <stdio.h>

int main(int words, char **word) {
    (void)word;
    if (words > 1) {
        puts(yen_version());
        return 0;
    }
    rank_table();
    robust_table();
    growth_tables();
    return dues();
}

#include "outside.h"

#include "compare.h"

#include <math.h>
#include <stdbool.h>
#include <stdio.h>
#include <stdlib.h>

static const char IMAGE[] = "target/bench/network.image";

// Runs the command and reads the numbers that it prints.
static void ask(const struct question *q, const char *command, double *numbers, unsigned count) {
    FILE *answer = popen(command, "r");
    unsigned read = 0;
    while (answer != NULL && read < count && fscanf(answer, "%lf", &numbers[read]) == 1)
        read++;
    if (answer == NULL || pclose(answer) != 0 || read < count) {
        char what[400];
        snprintf(what, sizeof what, "no answer from: %s", command);
        fail(q, what);
    }
}

static bool networkx_is_there(void) {
    static int status = -1;
    if (status < 0)
        status = system("python3 -c 'import networkx' 2>/dev/null");
    return status == 0;
}

static void write_image(const struct question *q) {
    FILE *file = fopen(IMAGE, "wb");
    if (file == NULL || fwrite(q->net->image, 1, q->net->image_length, file) != q->net->image_length || fclose(file) != 0)
        fail(q, "target/bench/network.image can't be written");
}

double time_networkx(const struct question *q) {
    double time_and_sum[2];
    char command[200];
    if (!networkx_is_there())
        return NAN;
    write_image(q);
    snprintf(command, sizeof command, "python3 bench/networkx_rank.py %s %u %u %u %u", IMAGE, q->column, q->start, q->goal, q->wanted);
    ask(q, command, time_and_sum, 2);
    time_rank(q);
    hold_to_sum(q, time_and_sum[1]);
    return time_and_sum[0];
}

double collected(const struct question *q, const char *words, double *number) {
    double read[2];
    char command[300];
    snprintf(command, sizeof command, "valgrind --tool=callgrind --callgrind-out-file=/dev/null --toggle-collect=counted target/bench/%s 2>&1 | sed -n 's/^counted //p; s/.*Collected : //p'", words);
    ask(q, command, read, number == NULL ? 1 : 2);
    if (number == NULL)
        return read[0];
    *number = read[0];
    return read[1];
}

double instructions(const struct question *q, uint32_t top, const char *engine) {
    char words[100];
    snprintf(words, sizeof words, "count %s %u %u %s", shape_names[q->net->shape], top, q->wanted, engine);
    return collected(q, words, NULL);
}

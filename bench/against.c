// Rank and Robust of two builds of the library, called by turns on the same networks:
// against BEFORE.so AFTER.so
// and one call of the one, for callgrind to count its instructions:
// against LIBRARY.so rank|robust SHAPE NUMBER LIKENESS TOP
#include "network.h"
#include "rank.h"
#include "report.h"
#include "timing.h"

#include <dlfcn.h>
#include <stdio.h>
#include <stdlib.h>
#include <string.h>

// Each line is over so many networks of a shape.
enum { NETWORKS = 8, TURNS = 41, WANTED = VIHROLOM_MOST_PATHS };

typedef struct vihrolom_reply robust_call(const uint8_t *image, size_t image_length, uint32_t column, uint32_t start, uint32_t goal, uint32_t wanted, uint16_t *path, size_t path_length, uint32_t *work, size_t work_length);

struct library {
    const char *file;
    rank_call *rank;
    robust_call *robust;
};

// What is asked of a network: a ranking, or the route of least greatest regret.
struct line {
    const char *call;
    enum shape shape;
    unsigned k;
    enum likeness likeness;
    uint32_t top;
};

struct answer {
    struct vihrolom_reply reply;
    uint16_t nodes[VIHROLOM_ROWS_LENGTH(VIHROLOM_MOST_NODES, VIHROLOM_MOST_PATHS)];
    uint32_t costs[VIHROLOM_MOST_PATHS];
};

static struct network net;
static struct answer answers[2];
static uint32_t work[VIHROLOM_WORK_LENGTH(VIHROLOM_MOST_NODES, VIHROLOM_MOST_PATHS)];

static void fail(const char *what) {
    fflush(stdout);
    fprintf(stderr, "against: %s\n", what);
    exit(1);
}

static struct library open_library(const char *file) {
    void *handle = dlopen(file, RTLD_NOW | RTLD_LOCAL);
    if (handle == NULL)
        fail(dlerror());
    struct library lib = {.file = file};
    *(void **)&lib.rank = dlsym(handle, "vihrolom_rank");
    *(void **)&lib.robust = dlsym(handle, "vihrolom_robust");
    if (lib.rank == NULL || lib.robust == NULL)
        fail("a library lacks Rank or Robust");
    return lib;
}

// Callgrind counts from the entry of this function to its end.
__attribute__((noinline)) void counted(const struct library *lib, const struct line *line, struct answer *a) {
    if (strcmp(line->call, "rank") == 0)
        a->reply = lib->rank(net.image, net.image_length, 1, 1, net.n, WANTED, a->nodes, VIHROLOM_ROWS_LENGTH(net.n, WANTED), a->costs, WANTED, work, VIHROLOM_WORK_LENGTH(net.n, WANTED));
    else
        a->reply = lib->robust(net.image, net.image_length, 1, 1, net.n, WANTED, a->nodes, net.n, work, VIHROLOM_WORK_LENGTH(net.n, WANTED));
}

static void make(const struct line *line, unsigned number) {
    make_network(&net, line->shape, number, line->k, line->likeness, line->top);
}

// Adds each library's median time on the network at hand.
static void add_times(const struct library *libs, const struct line *line, double *sums) {
    static double times[2][TURNS];
    memset(answers, 0, sizeof answers);
    for (unsigned turn = 0; turn < TURNS; turn++)
        for (unsigned i = 0; i < 2; i++) {
            double began = now();
            counted(&libs[i], line, &answers[i]);
            times[i][turn] = now() - began;
        }
    if (memcmp(&answers[0], &answers[1], sizeof answers[0]) != 0)
        fail("the answers differ");
    for (unsigned i = 0; i < 2; i++)
        sums[i] += median(times[i], TURNS);
}

static double instructions(const struct library *lib, const struct line *line, unsigned number) {
    char command[600];
    double count;
    snprintf(command, sizeof command, "valgrind --tool=callgrind --callgrind-out-file=/dev/null --toggle-collect=counted target/bench/against %s %s %u %u %u %u 2>&1 | sed -n 's/^.*Collected : //p'", lib->file, line->call, (unsigned)line->shape, number, (unsigned)line->likeness, (unsigned)line->top);
    FILE *answer = popen(command, "r");
    if (answer == NULL || fscanf(answer, "%lf", &count) != 1 || pclose(answer) != 0)
        fail("callgrind counts nothing");
    return count;
}

static void row(const struct library *libs, const struct line *line) {
    double times[2] = {0}, counts[2] = {0};
    for (unsigned number = 0; number < NETWORKS; number++) {
        make(line, number);
        add_times(libs, line, times);
        for (unsigned i = 0; i < 2; i++)
            counts[i] += instructions(&libs[i], line, number);
    }
    cell("%s", line->call);
    cell("%s", shape_names[line->shape]);
    cell("%s", likeness_names[line->likeness]);
    cell("%u", line->top);
    for (unsigned i = 0; i < 2; i++)
        cell("%.0f", times[i] / NETWORKS);
    cell("%.2f", times[0] / times[1]);
    for (unsigned i = 0; i < 2; i++)
        cell("%.0f", counts[i] / NETWORKS / 1000);
    cell("%.2f", counts[1] / counts[0]);
    end_row();
}

// Rank has one column, Robust all.
static struct line line_of(const char *call, enum shape shape, enum likeness likeness, uint32_t top) {
    return (struct line){call, shape, strcmp(call, "rank") == 0 ? 1 : VIHROLOM_MOST_COLUMNS, likeness, top};
}

static void compare(const struct library *libs) {
    static const uint32_t tops[] = {100, 1000000};
    table("Before and after", "| call | network | columns | costs to | time before | after | before / after | instructions before | after | after / before |");
    for (enum shape shape = GRID; shape <= LADDER; shape++)
        for (unsigned t = 0; t < 2; t++) {
            struct line line = line_of("rank", shape, INDEPENDENT, tops[t]);
            row(libs, &line);
        }
    for (enum likeness likeness = WITHIN_10; likeness < LIKENESSES; likeness++) {
        struct line line = line_of("robust", GRID, likeness, MOST_BASE);
        row(libs, &line);
    }
}

int main(int argc, char **argv) {
    if (argc == 7) {
        struct library lib = open_library(argv[1]);
        struct line line = line_of(argv[2], (enum shape)atoi(argv[3]), (enum likeness)atoi(argv[5]), (uint32_t)atoi(argv[6]));
        make(&line, (unsigned)atoi(argv[4]));
        counted(&lib, &line, &answers[0]);
        return 0;
    }
    if (argc != 3)
        fail("two libraries are needed");
    struct library libs[2] = {open_library(argv[1]), open_library(argv[2])};
    compare(libs);
    return 0;
}

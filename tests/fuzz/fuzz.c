// Calls the C functions on drawn images, numbers and lists, and holds each answer, and each byte of each list that
// is lent, to what docs/REFERENCE.md says.
//   fuzz [COUNT [SEED]]
// Every list stands beside a page that nobody may touch (lists.h), and the calls run on a stack of their own with
// such a page below it.
#define _GNU_SOURCE
#include "draw.h"
#include "report.h"
#include "subject.h"

#include <errno.h>
#include <pthread.h>
#include <signal.h>
#include <stdio.h>
#include <stdlib.h>
#include <string.h>
#include <sys/mman.h>
#include <unistd.h>

enum { STACK = 1 << 20, SIGNAL_STACK = 1 << 16, UNTOUCHED = 90, MOST_CALLS_A_ROUND = 12 };

static uint64_t wanted = 1000000, seed = 1;

// ---- the rounds

static void (*const calls[])(struct subject *) = {
    call_build, call_unpack, call_update, call_label, call_shortest, call_regret,
    call_rank,  call_robust, call_search, call_find,  call_week,     call_event,
};

// A new image, and some calls on it.
static void run_round(void) {
    static struct network drawn;
    static struct subject subject;
    static uint8_t image[VIHROLOM_MOST_BYTES + 64];
    draw_network(&drawn);
    subject.drawn = &drawn;
    size_t length = draw_image(&drawn, image, &subject.sound);
    subject.image = list_of(IMAGE, "image", image, length, 1);
    call_check(&subject);
    uint32_t left = subject.check.refusal == 0 ? draw_between(1, MOST_CALLS_A_ROUND) : 3;
    for (; left > 0 && report_calls() < wanted; left--)
        calls[draw() % (sizeof calls / sizeof *calls)](&subject);
}

// ---- signals

static void caught(int number, siginfo_t *information, void *context) {
    (void)context;
    report_signal(number, information->si_addr);
    _exit(1);
}

// The handler has a stack of its own, for the signal may be that the other one was too short. Gives the one that the
// thread had for that before.
static stack_t catch_signals(void) {
    static uint8_t room[SIGNAL_STACK];
    stack_t stack = {.ss_sp = room, .ss_size = sizeof room}, before;
    sigaltstack(&stack, &before);
    struct sigaction action = {.sa_sigaction = caught, .sa_flags = SA_SIGINFO | SA_ONSTACK};
    sigaction(SIGSEGV, &action, NULL);
    sigaction(SIGBUS, &action, NULL);
    sigaction(SIGILL, &action, NULL);
    sigaction(SIGFPE, &action, NULL);
    return before;
}

// ---- the stack

static void *run(void *nothing) {
    stack_t before = catch_signals();
    make_lists();
    draw_from(seed);
    while (report_calls() < wanted)
        run_round();
    sigaltstack(&before, NULL);
    return nothing;
}

static void refuse(const char *words) {
    fprintf(stderr, "fuzz: %s: %s\n", words, strerror(errno));
    exit(2);
}

// Runs the rounds on a stack that was filled before, and gives how much of it was touched.
static unsigned long run_on_stack(void) {
    size_t page = (size_t)sysconf(_SC_PAGESIZE);
    uint8_t *memory = mmap(NULL, page + STACK, PROT_READ | PROT_WRITE, MAP_PRIVATE | MAP_ANONYMOUS, -1, 0);
    if (memory == MAP_FAILED || mprotect(memory, page, PROT_NONE) != 0)
        refuse("no memory for a stack");
    uint8_t *stack = memory + page;
    memset(stack, UNTOUCHED, STACK);
    pthread_t thread;
    pthread_attr_t attributes;
    pthread_attr_init(&attributes);
    if (pthread_attr_setstack(&attributes, stack, STACK) != 0 || pthread_create(&thread, &attributes, run, NULL) != 0)
        refuse("no thread");
    pthread_join(thread, NULL);
    unsigned long untouched = 0;
    while (untouched < STACK && stack[untouched] == UNTOUCHED)
        untouched++;
    return STACK - untouched;
}

// ---- the command line

static uint64_t number(const char *word) {
    char *end;
    errno = 0;
    uint64_t value = strtoull(word, &end, 10);
    if (errno != 0 || *word < '0' || *word > '9' || *end != 0) {
        fprintf(stderr, "usage: fuzz [COUNT [SEED]]\n");
        exit(2);
    }
    return value;
}

int main(int count, char **words) {
    if (count > 1)
        wanted = number(words[1]);
    if (count > 2)
        seed = number(words[2]);
    if (count > 3)
        number("");
    if (vihrolom_version() != VIHROLOM_VERSION_NUMBER) {
        fprintf(stderr, "fuzz: the library is of another version than the header\n");
        return 1;
    }
    report_begin(wanted, seed);
    report_end(run_on_stack());
    return 0;
}

#define _GNU_SOURCE
#include "lists.h"

#include "draw.h"
#include "report.h"

#include <stdio.h>
#include <stdlib.h>
#include <string.h>
#include <sys/mman.h>
#include <unistd.h>

// The longest list is a workspace for 200 nodes and 256 paths, with some places more: 240 KB.
enum { ROOM = 1 << 18, MARGIN = 192, PATTERN = 165 };

// Two views of the same memory, between pages that nobody may touch, and what a list in it must be.
struct arena {
    uint8_t *writable, *readable;
    uint8_t due[ROOM];
};

static struct arena arenas[SLOTS];

static void *mapped(int file, int rights, size_t page) {
    uint8_t *around = mmap(NULL, ROOM + 2 * page, PROT_NONE, MAP_PRIVATE | MAP_ANONYMOUS, -1, 0);
    if (around == MAP_FAILED)
        return MAP_FAILED;
    return mmap(around + page, ROOM, rights, MAP_SHARED | MAP_FIXED, file, 0);
}

void make_lists(void) {
    size_t page = (size_t)sysconf(_SC_PAGESIZE);
    for (int slot = 0; slot < SLOTS; slot++) {
        int file = memfd_create("list", 0);
        if (file < 0 || ftruncate(file, ROOM) != 0) {
            perror("fuzz: memfd_create");
            exit(2);
        }
        arenas[slot].writable = mapped(file, PROT_READ | PROT_WRITE, page);
        arenas[slot].readable = mapped(file, PROT_READ, page);
        if (arenas[slot].writable == MAP_FAILED || arenas[slot].readable == MAP_FAILED) {
            perror("fuzz: mmap");
            exit(2);
        }
        close(file);
    }
}

// The list at one of the two ends of its memory; the pattern is at its other side.
static struct list placed(enum slot slot, const char *name, size_t length, size_t width, bool written) {
    struct arena *arena = &arenas[slot];
    struct list list = {.length = length, .bytes = length * width, .due = arena->due, .name = name};
    if (list.bytes + MARGIN > ROOM)
        report_wrong("a list of %zu bytes has no room in the test", list.bytes);
    bool high = draw_chance(75);
    size_t at = high ? ROOM - list.bytes : 0;
    list.own = arena->writable + at;
    list.lent = (written ? arena->writable : arena->readable) + at;
    list.margin = high ? list.own - MARGIN : list.own + list.bytes;
    memset(list.margin, PATTERN, MARGIN);
    return list;
}

struct list list_to_write(enum slot slot, const char *name, size_t length, size_t width) {
    struct list list = placed(slot, name, length, width, true);
    draw_bytes(list.own, list.bytes);
    return list;
}

struct list list_to_read(enum slot slot, const char *name, size_t length, size_t width) {
    struct list list = placed(slot, name, length, width, false);
    draw_bytes(list.own, list.bytes);
    return list;
}

struct list list_of(enum slot slot, const char *name, const void *elements, size_t length, size_t width) {
    struct list list = placed(slot, name, length, width, false);
    memcpy(list.own, elements, list.bytes);
    return list;
}

void list_keeps(struct list *list) {
    memcpy(list->due, list->own, list->bytes);
}

void expect_list(const struct list *list) {
    for (size_t i = 0; i < MARGIN; i++)
        if (list->margin[i] != PATTERN)
            report_wrong("a byte beside the list '%s' was written", list->name);
    if (memcmp(list->own, list->due, list->bytes) == 0)
        return;
    size_t at = 0;
    while (list->own[at] == list->due[at])
        at++;
    report_wrong("byte %zu of the %zu of the list '%s' is %u, must be %u", at, list->bytes, list->name, list->own[at], list->due[at]);
}

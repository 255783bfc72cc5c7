// Lists that are lent to a call. Each stands right before a page that nobody may touch, or right behind one, so
// that a step out of it on that side ends the program; beside its other end stands a pattern that must last.
// A list that a call only reads stands in memory that can only be read.
#ifndef LISTS_H
#define LISTS_H

#include <stdbool.h>
#include <stddef.h>
#include <stdint.h>

// A call has an image and at most three lists more.
enum slot { IMAGE, FIRST, SECOND, THIRD, SLOTS };

struct list {
    size_t length; // in elements
    size_t bytes;
    void *lent;    // the pointer for the call
    uint8_t *own;  // the same bytes, to fill and to look at
    uint8_t *due;  // what they must be after the call
    uint8_t *margin;
    const char *name;
};

// Makes the memory of all slots, once.
void make_lists(void);

// A list of `length` elements of `width` bytes each, filled with drawn bytes.
struct list list_to_write(enum slot slot, const char *name, size_t length, size_t width);
struct list list_to_read(enum slot slot, const char *name, size_t length, size_t width);

// A list to read that holds these elements.
struct list list_of(enum slot slot, const char *name, const void *elements, size_t length, size_t width);

// What the list holds now is what it must hold after the call, but for what is changed in `due`.
void list_keeps(struct list *list);

// After the call: the list is as is due, and so is the pattern beside it.
void expect_list(const struct list *list);

#endif

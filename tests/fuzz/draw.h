// Numbers drawn from a seed: the same seed gives the same run.
#ifndef DRAW_H
#define DRAW_H

#include <stdbool.h>
#include <stddef.h>
#include <stdint.h>

void draw_from(uint64_t seed);

// Any number.
uint64_t draw(void);

// A number from `low` to `high`.
uint32_t draw_between(uint32_t low, uint32_t high);

// True so many times in a hundred.
bool draw_chance(uint32_t percent);

// A number to give to a call: mostly one from `low` to `high`, now and then one outside, however large.
uint32_t draw_number(uint32_t low, uint32_t high);

// The length of a list of which `needed` elements are needed: mostly just these, else more or fewer.
size_t draw_length(size_t needed);

// Fills so many bytes.
void draw_bytes(uint8_t *bytes, size_t count);

#endif

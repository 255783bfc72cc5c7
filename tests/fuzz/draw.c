#include "draw.h"

#include <string.h>

static uint64_t state;

void draw_from(uint64_t seed) {
    state = seed;
}

// splitmix64
uint64_t draw(void) {
    state += UINT64_C(0x9e3779b97f4a7c15);
    uint64_t z = state;
    z = (z ^ (z >> 30)) * UINT64_C(0xbf58476d1ce4e5b9);
    z = (z ^ (z >> 27)) * UINT64_C(0x94d049bb133111eb);
    return z ^ (z >> 31);
}

uint32_t draw_between(uint32_t low, uint32_t high) {
    return low + (uint32_t)(draw() % ((uint64_t)high - low + 1));
}

bool draw_chance(uint32_t percent) {
    return draw() % 100 < percent;
}

uint32_t draw_number(uint32_t low, uint32_t high) {
    if (!draw_chance(5))
        return draw_between(low, high);
    switch (draw() % 6) {
    case 0:
        return 0;
    case 1:
        return high + 1;
    case 2:
        return UINT32_MAX;
    case 3:
        return 65536 + draw_between(low, high); // right in its low 16 bits
    case 4:
        return UINT32_MAX - draw_between(0, 300);
    default:
        return (uint32_t)draw();
    }
}

size_t draw_length(size_t needed) {
    uint32_t kind = draw_between(1, 100);
    if (kind <= 75 || needed == 0)
        return needed;
    if (kind <= 90)
        return needed + draw_between(1, 20);
    if (kind <= 95)
        return needed - 1;
    if (kind <= 97)
        return 0;
    return (size_t)(draw() % needed);
}

void draw_bytes(uint8_t *bytes, size_t count) {
    for (size_t i = 0; i < count; i += 8) {
        uint64_t eight = draw();
        memcpy(bytes + i, &eight, count - i < 8 ? count - i : 8);
    }
}

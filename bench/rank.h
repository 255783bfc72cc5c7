// The call Rank as the library exports it to C, and the plain engine of the same shape.
#ifndef RANK_H
#define RANK_H

#include "vihrolom.h"

typedef struct vihrolom_reply rank_call(const uint8_t *image, size_t image_length, uint32_t column, uint32_t start, uint32_t goal, uint32_t wanted, uint16_t *rows, size_t rows_length, uint32_t *costs, size_t costs_length, uint32_t *work, size_t work_length);

rank_call plain_rank;

#endif

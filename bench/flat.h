/* The tree line by line over the whole block, on flat histories: no ring and no compare, at the price of a history and a block of scratch
   for each line. The fastest form of these sums that is plain to write; the bench times the archive beside it. */
#ifndef FLAT_H
#define FLAT_H

#include <stddef.h>
#include <stdint.h>

enum { FLAT_MOST_BANDS = 10, FLAT_LINE = 9 << 9, FLAT_BLOCK = 4096 };

/* line[0] is line M, the input: its last `size` samples, and behind them those of the block. */
struct flat {
    int bands, size;
    int32_t line[FLAT_MOST_BANDS - 1][FLAT_LINE + FLAT_BLOCK];
};

void flat_prepare(struct flat *flat, int bands);
void flat_block(struct flat *flat, const int32_t *gains, const int32_t *input, int32_t *output, size_t length);

#endif

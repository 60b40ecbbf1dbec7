/* The tree in plain C: rings, eleven products, a compare for each ring index. The tests hold the archive and the program to it, and it
   to model/tree.py; the bench times the archive beside it. A memory's places are in the order of docs/LAYOUT.md. */
#ifndef TREE_H
#define TREE_H

#include <stddef.h>
#include <stdint.h>

enum { TREE_MOST_BANDS = 10, TREE_MOST_CHANNELS = 2, TREE_LINE = 9 << 9 };

/* line[s][0] is the ring of line M, the input, of side s; the left one is side 0. */
struct tree {
    int bands, channels, size, position;
    int32_t line[TREE_MOST_CHANNELS][TREE_MOST_BANDS - 1][TREE_LINE];
};

void tree_prepare(struct tree *tree, int bands, int channels);

/* Interleaved frames, so many: sample i of side s is at place channels * i + s. */
void tree_block(struct tree *tree, const int32_t *gains, const int32_t *input, int32_t *output, size_t frames);

/* The two feeds of the bands: each the sum of its own, bands 1..split and the others, rounded and limited by itself. */
void tree_crossover(struct tree *tree, const int32_t *gains, int split, const int32_t *input, int32_t *bass, int32_t *horn, size_t frames);

#endif

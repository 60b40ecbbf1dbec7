/* reckon CHANNELS SPLIT GAIN.. <samples >outputs: frames of 24-bit samples through the tree, a gain for each band, lowest first. The delay
   is taken out, and zeros follow the input: for eight gains and the split 0, what eqwave has to write. With another split each sample has two
   outputs, the bass feed's and the horn feed's. */
#include <stdio.h>
#include <stdlib.h>
#include <string.h>
#include "tree.h"

enum { ROOM = TREE_LINE * TREE_MOST_CHANNELS };

static struct tree tree;
static int32_t gains[TREE_MOST_BANDS], input[ROOM], output[2][ROOM];
static int split;
static size_t left_out;

/* Reads up to ROOM samples: whole frames, since the input has no part of one and ROOM is even. */
static size_t get(void)
{
    uint8_t bytes[3];
    size_t n = 0;
    while (n < ROOM && fread(bytes, 1, 3, stdin) == 3) {
        int32_t z = bytes[0] | bytes[1] << 8 | bytes[2] << 16;
        input[n++] = z < 8388608 ? z : z - 16777216;
    }
    return n;
}

static void put_sample(int32_t z)
{
    putchar(z & 255), putchar(z >> 8 & 255), putchar(z >> 16 & 255);
}

/* Equalises so many samples and writes what comes after the delay. */
static void put(size_t n)
{
    size_t frames = n / (size_t)tree.channels;
    if (split)
        tree_crossover(&tree, gains, split, input, output[0], output[1], frames);
    else
        tree_block(&tree, gains, input, output[0], frames);
    for (size_t i = 0; i < n; i++)
        if (left_out > 0) {
            left_out--;
        } else {
            put_sample(output[0][i]);
            if (split)
                put_sample(output[1][i]);
        }
}

int main(int argc, char **argv)
{
    int channels = argc > 1 ? atoi(argv[1]) : 0, bands = argc - 3;
    size_t n, late;
    if (bands < 2 || bands > TREE_MOST_BANDS || channels < 1 || channels > TREE_MOST_CHANNELS)
        return 1;
    split = atoi(argv[2]);
    if (split < 0 || split >= bands)
        return 1;
    for (int i = 0; i < bands; i++)
        gains[i] = atoi(argv[i + 3]);
    tree_prepare(&tree, bands, channels);
    late = (size_t)channels * 9 * ((1u << (bands - 1)) - 1);
    left_out = late;
    while ((n = get()) > 0)
        put(n);
    memset(input, 0, sizeof input);
    put(late);
    return fflush(stdout) ? 1 : 0;
}

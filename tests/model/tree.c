#include "tree.h"

#include <string.h>

struct stepped {
    int64_t sum;
    int32_t aligned;
};

static int64_t nearest(int64_t z, int64_t d)
{
    return z < 0 ? (z - d / 2) / d : (z + d / 2) / d;
}

static int64_t limited(int64_t z, int64_t least, int64_t most)
{
    return z < least ? least : z > most ? most : z;
}

static int32_t back(const int32_t *line, int size, int at, int d)
{
    int i = at - d;
    if (i < 0)
        i += size;
    return line[i];
}

/* The new sample of the line below, with the stretch l: eleven products, rounded, limited. */
static inline int32_t low_pass(const int32_t *line, int size, int at, int l, int32_t x)
{
    int64_t sum = 313 * (int64_t)x - 1338 * (int64_t)back(line, size, at, 2 * l)
                + 3593 * (int64_t)back(line, size, at, 4 * l) - 8718 * (int64_t)back(line, size, at, 6 * l)
                + 31158 * (int64_t)back(line, size, at, 8 * l) + 50000 * (int64_t)back(line, size, at, 9 * l)
                + 31158 * (int64_t)back(line, size, at, 10 * l) - 8718 * (int64_t)back(line, size, at, 12 * l)
                + 3593 * (int64_t)back(line, size, at, 14 * l) - 1338 * (int64_t)back(line, size, at, 16 * l)
                + 313 * (int64_t)back(line, size, at, 18 * l);
    return (int32_t)limited(nearest(sum, 100000), INT32_MIN, INT32_MAX);
}

/* One sample of a side through its lines from line `bands` down, which is the first of `lines`; l is the stretch. */
static struct stepped step(const struct tree *tree, int32_t (*lines)[TREE_LINE], int bands, int l, const int32_t *gains, int32_t x)
{
    struct stepped below, here;
    if (bands == 1) {
        here.sum = (int64_t)gains[0] * x;
        here.aligned = x;
        return here;
    }
    int size = tree->size, at = tree->position;
    int32_t *line = *lines, low = low_pass(line, size, at, l, x);
    here.aligned = back(line, size, at, size - 9 * l);
    line[at] = x;
    below = step(tree, lines + 1, bands - 1, 2 * l, gains, low);
    here.sum = below.sum + gains[bands - 1] * ((int64_t)here.aligned - below.aligned);
    return here;
}

/* The same with no gain: band[m - 1] is band m, held back. Answers the aligned sample of line `bands`. */
static int32_t bands_of(const struct tree *tree, int32_t (*lines)[TREE_LINE], int bands, int l, int64_t *band, int32_t x)
{
    if (bands == 1)
        return (int32_t)(band[0] = x);
    int size = tree->size, at = tree->position;
    int32_t *line = *lines, low = low_pass(line, size, at, l, x), aligned = back(line, size, at, size - 9 * l);
    line[at] = x;
    band[bands - 1] = (int64_t)aligned - bands_of(tree, lines + 1, bands - 1, 2 * l, band, low);
    return aligned;
}

static int32_t rounded(int64_t sum)
{
    return (int32_t)limited(nearest(sum, 4096), -8388608, 8388607);
}

static void next_frame(struct tree *tree)
{
    tree->position = tree->position + 1 < tree->size ? tree->position + 1 : 0;
}

void tree_prepare(struct tree *tree, int bands, int channels)
{
    memset(tree, 0, sizeof *tree);
    tree->bands = bands;
    tree->channels = channels;
    tree->size = 9 << (bands - 1);
}

void tree_block(struct tree *tree, const int32_t *gains, const int32_t *input, int32_t *output, size_t frames)
{
    for (size_t i = 0; i < frames; i++) {
        for (int side = 0; side < tree->channels; side++)
            *output++ = rounded(step(tree, tree->line[side], tree->bands, 1, gains, *input++).sum);
        next_frame(tree);
    }
}

void tree_crossover(struct tree *tree, const int32_t *gains, int split, const int32_t *input, int32_t *bass, int32_t *horn, size_t frames)
{
    int64_t band[TREE_MOST_BANDS];
    for (size_t i = 0; i < frames; i++) {
        for (int side = 0; side < tree->channels; side++) {
            int64_t low = 0, high = 0;
            bands_of(tree, tree->line[side], tree->bands, 1, band, *input++);
            for (int m = 1; m <= split; m++)
                low += gains[m - 1] * band[m - 1];
            for (int m = split + 1; m <= tree->bands; m++)
                high += gains[m - 1] * band[m - 1];
            *bass++ = rounded(low);
            *horn++ = rounded(high);
        }
        next_frame(tree);
    }
}

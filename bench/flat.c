#include "flat.h"

#include <string.h>

static int64_t nearest(int64_t z, int64_t d)
{
    return z < 0 ? (z - d / 2) / d : (z + d / 2) / d;
}

static int64_t limited(int64_t z, int64_t least, int64_t most)
{
    return z < least ? least : z > most ? most : z;
}

/* The low samples of a line: `new` is where its block begins, l the stretch. */
static void low_pass(const int32_t *restrict new, int l, int32_t *restrict low, size_t length)
{
    for (size_t i = 0; i < length; i++) {
        const int32_t *x = new + i;
        int64_t sum = 313 * (int64_t)x[0] - 1338 * (int64_t)x[-2 * l] + 3593 * (int64_t)x[-4 * l] - 8718 * (int64_t)x[-6 * l]
                    + 31158 * (int64_t)x[-8 * l] + 50000 * (int64_t)x[-9 * l] + 31158 * (int64_t)x[-10 * l]
                    - 8718 * (int64_t)x[-12 * l] + 3593 * (int64_t)x[-14 * l] - 1338 * (int64_t)x[-16 * l] + 313 * (int64_t)x[-18 * l];
        low[i] = (int32_t)limited(nearest(sum, 100000), INT32_MIN, INT32_MAX);
    }
}

/* A line's part of the gain sums. */
static void add(int64_t *restrict sums, int64_t difference, const int32_t *restrict aligned, size_t length)
{
    for (size_t i = 0; i < length; i++)
        sums[i] += difference * aligned[i];
}

void flat_prepare(struct flat *flat, int bands)
{
    memset(flat, 0, sizeof *flat);
    flat->bands = bands;
    flat->size = 9 << (bands - 1);
}

void flat_block(struct flat *flat, const int32_t *gains, const int32_t *input, int32_t *output, size_t length)
{
    static int64_t sums[FLAT_BLOCK];
    static int32_t lowest[FLAT_BLOCK];
    int bands = flat->bands, size = flat->size;
    memset(sums, 0, length * sizeof *sums);
    memcpy(flat->line[0] + size, input, length * sizeof *input);
    for (int k = 0; k + 1 < bands; k++) {
        int l = 1 << k, band = bands - k;
        int32_t *line = flat->line[k], *low = k + 2 < bands ? flat->line[k + 1] + size : lowest;
        low_pass(line + size, l, low, length);
        add(sums, (int64_t)gains[band - 1] - (band < bands ? gains[band] : 0), line + 9 * l, length);
        memmove(line, line + length, (size_t)size * sizeof *line);
    }
    add(sums, (int64_t)gains[0] - gains[1], lowest, length);
    for (size_t i = 0; i < length; i++)
        output[i] = (int32_t)limited(nearest(sums[i], 4096), -8388608, 8388607);
}

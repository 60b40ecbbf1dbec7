/* oeq_block beside two C forms of the same tree, the plain one and the flat one, on the same noise, in turns; beside itself with two
 * channels, that noise on the left and another on the right; beside oeq_crossover, half of the bands in each feed; and, with -DBEFORE,
 * beside another archive's oeq_block, renamed before_block. `block BANDS LENGTH ROUNDS` prints the medians, nanoseconds a frame, of
 * oeq_block, plain, flat, two channels, crossover and before, in blocks of LENGTH frames; `block BANDS LENGTH ROUNDS oeq`, `plain`, `flat`,
 * `two`, `cross` or `before` runs one of them alone, so many times round the rings, to count instructions. */
#include <stdio.h>
#include <stdlib.h>
#include <string.h>
#include <time.h>
#include "flat.h"
#include "octave_eq.h"
#include "tree.h"

enum { MOST = OEQ_BLOCK_MOST, TURN = 32768 };

/* Shifts all code behind it by SHIFT bytes: another layout. */
#ifdef SHIFT
#define TEXT(n) #n
#define SKIP(n) ".text\n.skip " TEXT(n) "\n"
__asm__(SKIP(SHIFT));
#endif

enum form { OEQ, PLAIN, FLAT, TWO, CROSS, OTHER };

static const char *const names[] = {"oeq", "plain", "flat", "two", "cross", "before"};
static int32_t memory[4][OEQ_MEMORY_LENGTH(10, 2)], gains[10], input[MOST], frames[2 * MOST], output[6][2 * MOST], horn[MOST];
static struct tree tree, crossed;
static struct flat flat;

typedef int64_t block_call(int32_t *memory, size_t memory_length, const int32_t *gains, size_t gains_length,
                           const int32_t *input, size_t input_length, int32_t *output, size_t output_length);

#ifdef BEFORE
extern block_call before_block;
static block_call *const other = before_block;
enum { FORMS = OTHER + 1 };
#else
static block_call *const other = NULL;
enum { FORMS = OTHER };
#endif

static size_t other_length;

/* Prepares the other archive's memory by hand, since its calls may know no channels, and answers the length. From before channels, the
   memory has no place for their count. */
static size_t prepare_other(int bands)
{
    int32_t *lent = memory[2];
    size_t length = (size_t)OEQ_MEMORY_LENGTH(bands, 1);
    lent[0] = bands;
    lent[1] = 1;
    if (!other || other(lent, length, gains, (size_t)bands, NULL, 0, NULL, 0) == 0)
        return length;
    lent[1] = 0;
    return length - 1;
}

static double now(void)
{
    struct timespec t;
    clock_gettime(CLOCK_MONOTONIC, &t);
    return (double)t.tv_sec * 1e9 + (double)t.tv_nsec;
}

/* So many frames in blocks of `length`, which divides MOST or is at most MOST, through one form. */
static void run(enum form form, int bands, size_t count, size_t length)
{
    size_t m = (size_t)bands;
    for (size_t done = 0; done < count; done += length) {
        int64_t answer = (int64_t)length;
        size_t at = done % MOST;
        if (at + length > MOST)
            at = 0;
        int32_t *out = output[form] + at;
        const int32_t *in = input + at;
        switch (form) {
        case OEQ: answer = oeq_block(memory[0], OEQ_MEMORY_LENGTH(m, 1), gains, m, in, length, out, length); break;
        case PLAIN: tree_block(&tree, gains, in, out, length); break;
        case FLAT: flat_block(&flat, gains, in, out, length); break;
        case TWO:
            answer = oeq_block(memory[1], OEQ_MEMORY_LENGTH(m, 2), gains, m, frames + 2 * at, 2 * length, out + at, 2 * length);
            break;
        case CROSS:
            answer = oeq_crossover(memory[3], OEQ_MEMORY_LENGTH(m, 1), gains, m, bands / 2, in, length, out, length, horn + at, length);
            break;
        case OTHER: answer = other(memory[2], other_length, gains, m, in, length, out, length); break;
        }
        if (answer != (int64_t)length)
            exit(1);
    }
}

/* Whether all forms gave the same outputs, of two channels the left ones; and the crossover, whose outputs are others, the same memory. */
static int alike(void)
{
    if (memcmp(memory[0], memory[3], (size_t)OEQ_MEMORY_LENGTH(memory[0][0], 1) * sizeof(int32_t)) != 0)
        return 0;
    for (size_t i = 0; i < MOST; i++)
        if (output[TWO][2 * i] != output[OEQ][i])
            return 0;
    for (int form = PLAIN; form < FORMS; form++)
        if (form != TWO && form != CROSS && memcmp(output[OEQ], output[form], MOST * sizeof(int32_t)) != 0)
            return 0;
    return 1;
}

/* Whether the crossover, from prepared memory, gives the feeds of the plain form. */
static int feeds_alike(int bands)
{
    static int32_t low[MOST], high[MOST];
    tree_crossover(&crossed, gains, bands / 2, input, low, high, MOST);
    run(CROSS, bands, MOST, MOST);
    return memcmp(low, output[CROSS], sizeof low) == 0 && memcmp(high, horn, sizeof high) == 0;
}

static int by_size(const void *a, const void *b)
{
    double x = *(const double *)a, y = *(const double *)b;
    return (x > y) - (x < y);
}

static double median(double *times, int rounds)
{
    qsort(times, (size_t)rounds, sizeof *times, by_size);
    return times[rounds / 2];
}

static int32_t noise(void)
{
    static uint64_t state = 1;
    state = state * 6364136223846793005u + 1442695040888963407u;
    return (int32_t)(state >> 40) - (1 << 23);
}

static int prepare(int bands)
{
    for (int i = 0; i < MOST; i++)
        input[i] = frames[2 * i] = noise();
    for (int i = 0; i < MOST; i++)
        frames[2 * i + 1] = noise();
    for (int channels = 1; channels <= 2; channels++)
        if (oeq_is_refusal(oeq_prepare(bands, channels, memory[channels - 1], (size_t)OEQ_MEMORY_LENGTH(bands, channels))))
            return 0;
    memcpy(memory[3], memory[0], sizeof memory[3]);
    for (int i = 0; i < bands; i++)
        gains[i] = 1024 * (i + 3);
    tree_prepare(&tree, bands, 1);
    tree_prepare(&crossed, bands, 1);
    flat_prepare(&flat, bands);
    other_length = prepare_other(bands);
    return 1;
}

int main(int argc, char **argv)
{
    int bands = argc > 1 ? atoi(argv[1]) : 10, length = argc > 2 ? atoi(argv[2]) : MOST, rounds = argc > 3 ? atoi(argv[3]) : 21;
    if (bands < 2 || bands > 10 || rounds < 1 || length < 1 || length > MOST || !prepare(bands))
        return 2;
    if (argc > 4) {
        size_t round = (size_t)(9 << (bands - 1));
        for (int form = 0; form < FORMS; form++)
            if (strcmp(argv[4], names[form]) == 0)
                run((enum form)form, bands, (size_t)rounds * round, round / 8);
        return 0;
    }
    if (!feeds_alike(bands)) {
        fprintf(stderr, "the feeds differ\n");
        return 1;
    }
    memset(memory[3] + 2, 0, sizeof memory[3] - 2 * sizeof(int32_t));
    double *times[FORMS];
    for (int form = 0; form < FORMS; form++)
        times[form] = malloc((size_t)rounds * sizeof(double));
    for (int i = 0; i < rounds; i++) {
        for (int form = 0; form < FORMS; form++) {
            double before = now();
            run((enum form)form, bands, TURN, (size_t)length);
            times[form][i] = (now() - before) / TURN;
        }
        if (!alike()) {
            fprintf(stderr, "they differ\n");
            return 1;
        }
    }
    for (int form = 0; form < FORMS; form++)
        printf("%.1f%c", median(times[form], rounds), form + 1 < FORMS ? ' ' : '\n');
    return 0;
}

/* block against the tree in plain C, of one channel and of two. */
#include "check.h"
#include "lent.h"
#include "octave_eq.h"
#include "parts.h"
#include "signals.h"
#include "tree.h"

enum { MOST_SAMPLES = OEQ_BLOCK_MOST * OEQ_CHANNELS_MOST };

/* Every place of the memory: the counts, the place of the next frame, and of each side the lines from line M down to line 2, each a ring. */
static void check_memory(const struct tree *tree, const int32_t *memory)
{
    CHECK(memory[0] == tree->bands && memory[1] == tree->channels, "%d bands, %d channels", (int)memory[0], (int)memory[1]);
    CHECK(memory[2] == tree->position, "position %d, not %d", (int)memory[2], tree->position);
    for (int side = 0; side < tree->channels; side++)
        for (int line = 0; line < tree->bands - 1; line++)
            CHECK(memcmp(memory + 3 + side * side_length(tree->bands) + line * tree->size, tree->line[side][line],
                         (size_t)tree->size * sizeof *memory) == 0,
                  "%d bands, side %d of %d, line %d", tree->bands, side, tree->channels, tree->bands - line);
}

/* The block with one sample out of range, on either side: refused for both, and nothing has changed since the mark. */
static void refused_between(struct places memory, const int32_t *gains, size_t bands, int32_t *input, struct places output)
{
    size_t at = random_below((uint32_t)output.length);
    int32_t sample = input[at];
    input[at] = wrong_sample();
    IS_REFUSAL_AT(oeq_block(memory.lent, memory.length, gains, bands, input, output.length, output.lent, output.length), 8, at);
    CHECK(places_same(memory) && places_same(output), "%zu bands, sample %zu", bands, at);
    input[at] = sample;
}

/* Runs a block of the tree and of the library side by side; n frames came before, and each side has a kind of signal. */
static void both(struct tree *tree, struct places memory, long n, size_t cut, const int *kinds)
{
    static int32_t input[MOST_SAMPLES], expected[MOST_SAMPLES];
    size_t channels = (size_t)tree->channels, length = cut * channels;
    struct places output = places_new(length);
    int32_t gains[TREE_MOST_BANDS];
    for (int m = 0; m < tree->bands; m++)
        gains[m] = random_gain();
    for (size_t i = 0; i < length; i++)
        input[i] = signal_at(kinds[i % channels], n + (long)(i / channels));
    places_mark(memory);
    places_mark(output);
    if (cut && random_below(8) == 0)
        refused_between(memory, gains, (size_t)tree->bands, input, output);
    int64_t answer = oeq_block(memory.lent, memory.length, gains, (size_t)tree->bands, cut ? input : NULL, length,
                               cut ? output.lent : NULL, length);
    CHECK(answer == (int64_t)cut, "answered %lld for a block of %zu", (long long)answer, cut);
    tree_block(tree, gains, input, expected, cut);
    for (size_t i = 0; i < length; i++)
        CHECK(output.lent[i] == expected[i], "%d bands, frame %ld, side %zu of %zu: %d, not %d", tree->bands,
              n + (long)(i / channels), i % channels, channels, (int)output.lent[i], (int)expected[i]);
    CHECK(places_around_same(memory) && places_around_same(output), "%d bands", tree->bands);
    if (cut == 0)
        CHECK(places_same(memory), "an empty block");
    places_free(output);
}

static struct tree tree;

/* Rounds in turn of one channel and of two. */
static int channels_of(int round)
{
    return 1 + round % 2;
}

void histories(int rounds)
{
    for (int round = 0; round < rounds; round++)
        for (int bands = 2; bands <= 10; bands++) {
            int channels = channels_of(round), kind = (round + bands) % SIGNALS;
            long frames = 2 * line_length(bands) + 600 + (long)random_below(1000), n = 0;
            struct places memory = places_new((size_t)length_of(bands, channels));
            oeq_prepare(bands, channels, memory.lent, memory.length);
            tree_prepare(&tree, bands, channels);
            while (n < frames) {
                size_t cut = random_cut();
                int kinds[2] = {random_below(4) ? kind : (int)random_below(SIGNALS), (int)random_below(SIGNALS)};
                both(&tree, memory, n, cut, kinds);
                n += (long)cut;
            }
            check_memory(&tree, memory.lent);
            places_free(memory);
        }
}

static int32_t wild(int kind)
{
    switch (kind) {
    case 0: return random_bits() & 1 ? INT32_MAX : INT32_MIN;
    case 1: return INT32_MIN;
    case 2: return INT32_MAX;
    default: return (int32_t)random_bits();
    }
}

void wild_memories(int rounds)
{
    for (int round = 0; round < rounds; round++)
        for (int bands = 2; bands <= 10; bands++) {
            int channels = channels_of(round);
            long size = line_length(bands), frames = bands < 7 ? 3 * size : 200 + (long)random_below(400), n = 0;
            struct places memory = places_new((size_t)length_of(bands, channels));
            tree_prepare(&tree, bands, channels);
            tree.position = round < 2 ? (int)size - 1 : (int)random_below((uint32_t)size);
            memory.lent[0] = bands;
            memory.lent[1] = channels;
            memory.lent[2] = tree.position;
            int32_t *place = memory.lent + 3;
            for (int side = 0; side < channels; side++) {
                int kind = (int)random_below(4);
                for (int line = 0; line < bands - 1; line++)
                    for (long i = 0; i < size; i++)
                        *place++ = tree.line[side][line][i] = wild(kind);
            }
            while (n < frames) {
                size_t cut = 1 + random_below(200);
                int kinds[2] = {(int)random_below(SIGNALS), (int)random_below(SIGNALS)};
                both(&tree, memory, n, cut, kinds);
                n += (long)cut;
            }
            check_memory(&tree, memory.lent);
            places_free(memory);
        }
}

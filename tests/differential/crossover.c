/* oeq_crossover against the tree in plain C, which sums each feed over its own bands; beside the plain call, on one memory; and what the
   two feeds add up to. Its refusals are in refusals.c. */
#include "check.h"
#include "lent.h"
#include "octave_eq.h"
#include "parts.h"
#include "signals.h"
#include "tree.h"

enum { MOST_SAMPLES = OEQ_BLOCK_MOST * OEQ_CHANNELS_MOST, MOST_PLACES = OEQ_MEMORY_LENGTH(10, 2), BASS = 0, HORN = 1 };

static const char *const names[] = {"bass", "horn"};
static int32_t input[MOST_SAMPLES], gains[TREE_MOST_BANDS], spare[2][MOST_SAMPLES];
static struct tree tree;

/* A memory, and the two feeds of its last call. */
struct run {
    struct places memory, feed[2];
    int split;
    size_t length;
};

static int64_t cross(int32_t *memory, size_t places, const int32_t *gain, const struct run *run, int32_t *bass, int32_t *horn)
{
    return oeq_crossover(memory, places, gain, (size_t)memory[0], run->split, input, run->length, bass, run->length, horn, run->length);
}

/* Whether a band, counted from 0, goes to a feed. */
static int goes(int feed, int split, int band)
{
    return feed == BASS ? band < split : band >= split;
}

/* The memory as it was before the call, in places of its own. */
static int32_t *memory_before(const struct run *run)
{
    static int32_t memory[MOST_PLACES];
    memcpy(memory, run->memory.before + GUARD, run->memory.length * sizeof(int32_t));
    return memory;
}

static void same_feed(const char *what, int feed, const struct run *run, const int32_t *expected)
{
    for (size_t i = 0; i < run->length; i++)
        CHECK(run->feed[feed].lent[i] == expected[i], "%s, %d bands, split %d, %s, sample %zu: %d, not %d", what, tree.bands,
              run->split, names[feed], i, (int)run->feed[feed].lent[i], (int)expected[i]);
}

/* A feed once more, from the memory before: with any gains of the other feed's bands, and as the plain call's output with those at 0. */
static void feed_alone(const struct run *run, int feed)
{
    int32_t other[TREE_MOST_BANDS], zeroed[TREE_MOST_BANDS];
    for (int m = 0; m < tree.bands; m++) {
        other[m] = goes(feed, run->split, m) ? gains[m] : random_gain();
        zeroed[m] = goes(feed, run->split, m) ? gains[m] : 0;
    }
    CHECK(!oeq_is_refusal(cross(memory_before(run), run->memory.length, other, run, spare[BASS], spare[HORN])), "%d bands", tree.bands);
    same_feed("other gains", feed, run, spare[feed]);
    CHECK(!oeq_is_refusal(oeq_block(memory_before(run), run->memory.length, zeroed, (size_t)tree.bands, input, run->length, spare[0],
                                    run->length)), "%d bands", tree.bands);
    same_feed("the plain call", feed, run, spare[0]);
}

/* The block with a sample out of range, then also with a split that leaves a feed no band: nothing has changed since the marks. */
static void refused_between(struct run *run)
{
    size_t at = random_below((uint32_t)run->length);
    int32_t sample = input[at], split = run->split;
    input[at] = wrong_sample();
    IS_REFUSAL_AT(cross(run->memory.lent, run->memory.length, gains, run, run->feed[BASS].lent, run->feed[HORN].lent), 8, at);
    run->split = random_bits() & 1 ? 0 : tree.bands;
    IS_REFUSAL(cross(run->memory.lent, run->memory.length, gains, run, run->feed[BASS].lent, run->feed[HORN].lent), 10);
    CHECK(places_same(run->memory) && places_same(run->feed[BASS]) && places_same(run->feed[HORN]), "%d bands", tree.bands);
    run->split = split;
    input[at] = sample;
}

/* A crossover call beside the tree's, and the memory beside that of a plain call on a copy. */
static void crossed(struct run *run, size_t cut)
{
    for (int feed = BASS; feed <= HORN; feed++) {
        run->feed[feed] = places_new(run->length);
        places_mark(run->feed[feed]);
    }
    places_mark(run->memory);
    if (cut && random_below(8) == 0)
        refused_between(run);
    int64_t answer = cross(run->memory.lent, run->memory.length, gains, run, run->feed[BASS].lent, run->feed[HORN].lent);
    CHECK(answer == (int64_t)cut, "answered %lld for a block of %zu", (long long)answer, cut);
    tree_crossover(&tree, gains, run->split, input, spare[BASS], spare[HORN], cut);
    same_feed("the tree", BASS, run, spare[BASS]);
    same_feed("the tree", HORN, run, spare[HORN]);
    int32_t *plain = memory_before(run);
    CHECK(oeq_block(plain, run->memory.length, gains, (size_t)tree.bands, input, run->length, spare[0], run->length) == (int64_t)cut,
          "%d bands", tree.bands);
    CHECK(memcmp(plain, run->memory.lent, run->memory.length * sizeof(int32_t)) == 0, "%d bands, split %d: not the plain call's memory",
          tree.bands, run->split);
    if (random_below(3) == 0) {
        feed_alone(run, BASS);
        feed_alone(run, HORN);
    }
    for (int feed = BASS; feed <= HORN; feed++) {
        CHECK(places_around_same(run->memory) && places_around_same(run->feed[feed]), "%d bands, around the %s", tree.bands, names[feed]);
        places_free(run->feed[feed]);
    }
}

/* A plain call on the same memory, beside the tree's. */
static void plain(struct run *run, size_t cut)
{
    CHECK(oeq_block(run->memory.lent, run->memory.length, gains, (size_t)tree.bands, input, run->length, spare[0], run->length)
              == (int64_t)cut, "%d bands", tree.bands);
    tree_block(&tree, gains, input, spare[1], cut);
    CHECK(memcmp(spare[0], spare[1], run->length * sizeof(int32_t)) == 0, "%d bands, a plain call between", tree.bands);
}

/* Any numbers in the lines, of the memory and of the tree. */
static void any_lines(struct run *run)
{
    int32_t *place = run->memory.lent + 3;
    for (int side = 0; side < tree.channels; side++)
        for (int line = 0; line < tree.bands - 1; line++)
            for (int i = 0; i < tree.size; i++)
                *place++ = tree.line[side][line][i] = side == 0 ? (int32_t)random_bits() : random_bits() & 1 ? INT32_MAX : INT32_MIN;
    run->memory.lent[2] = tree.position = tree.size - 1 - (int)random_below((uint32_t)tree.size);
}

/* Blocks cut at random, one in four plain, the splits in turn, each of them at least once. */
static void mixed(int bands, int channels, int wild)
{
    struct run run = {.memory = places_new((size_t)length_of(bands, channels))};
    long frames = line_length(bands) + 600 + (long)random_below(1000);
    int kinds[2] = {(int)random_below(SIGNALS), (int)random_below(SIGNALS)};
    oeq_prepare(bands, channels, run.memory.lent, run.memory.length);
    tree_prepare(&tree, bands, channels);
    if (wild)
        any_lines(&run);
    long n = 0;
    for (int calls = 0; n < frames || calls < bands - 1;) {
        size_t cut = random_cut();
        run.length = cut * (size_t)channels;
        run.split = 1 + calls % (bands - 1);
        for (int m = 0; m < bands; m++)
            gains[m] = random_gain();
        for (size_t i = 0; i < run.length; i++)
            input[i] = signal_at(kinds[i % (size_t)channels], n + (long)(i / (size_t)channels));
        if (random_below(4) == 0) {
            plain(&run, cut);
        } else {
            crossed(&run, cut);
            calls += cut > 0;
        }
        n += (long)cut;
    }
    places_free(run.memory);
}

/* A sample of the signal that the low-pass makes the most of: full scale with the sign of each coefficient. */
static int32_t peak_at(long n)
{
    static const int sign[19] = {1, 0, -1, 0, 1, 0, -1, 0, 1, 1, 1, 0, -1, 0, 1, 0, -1, 0, 1};
    return n % 64 < 19 ? sign[n % 64] * OEQ_SAMPLE_MOST : 0;
}

static int at_limit(int32_t sample)
{
    return sample == OEQ_SAMPLE_MOST || sample == OEQ_SAMPLE_LEAST;
}

/* With gains of unity the feeds add up to the late input. A signal of a thirty-second of full scale keeps both off their limits, whatever it
   is: a line is at most 1.4024^9 times the input, 21. A loud one does not: there the sum must fail once, and only beside a limit. */
static void adds_up(int bands, int channels, int loud)
{
    enum { MOST_FRAMES = 12000 };
    static int32_t signal[OEQ_CHANNELS_MOST * MOST_FRAMES];
    struct run run = {.memory = places_new((size_t)length_of(bands, channels))};
    long frames = line_length(bands) + 1000, n = 0, t = oeq_prepare(bands, channels, run.memory.lent, run.memory.length), apart = 0;
    int kinds[2] = {(int)random_below(SIGNALS), (int)random_below(SIGNALS)};
    for (long i = 0; i < channels * frames; i++)
        signal[i] = loud ? peak_at(i / channels) : signal_at(kinds[i % channels], i / channels) / 32;
    for (int m = 0; m < bands; m++)
        gains[m] = OEQ_GAIN_UNITY;
    while (n < frames) {
        long cut = (long)random_cut();
        cut = cut < frames - n ? cut : frames - n;
        run.length = (size_t)(cut * channels);
        run.split = loud ? bands - 1 : 1 + (int)random_below((uint32_t)bands - 1);
        memcpy(input, signal + channels * n, run.length * sizeof(int32_t));
        CHECK(cross(run.memory.lent, run.memory.length, gains, &run, spare[BASS], spare[HORN]) == cut, "%d bands", bands);
        for (size_t i = 0; i < run.length; i++) {
            long late = channels * (n - t) + (long)i;
            int32_t x = late < 0 ? 0 : signal[late], bass = spare[BASS][i], horn = spare[HORN][i];
            int limited = at_limit(bass) || at_limit(horn);
            CHECK(bass + horn == x || (loud && limited), "%d bands, split %d, sample %ld: %d and %d are not %d", bands, run.split,
                  channels * n + (long)i, (int)bass, (int)horn, (int)x);
            apart += bass + horn != x;
        }
        n += cut;
    }
    CHECK(!loud || apart > 0, "%d bands: no feed was limited", bands);
    places_free(run.memory);
}

/* Two bands, one gain for both, split 1: what the feeds of a signal are at a place. */
static void reading(int32_t gain, int32_t (*signal)(long), size_t at, int32_t bass, int32_t horn)
{
    int32_t memory[OEQ_MEMORY_LENGTH(2, 1)];
    struct run run = {.split = 1, .length = 40};
    gains[0] = gains[1] = gain;
    oeq_prepare(2, 1, memory, OEQ_MEMORY_LENGTH(2, 1));
    for (long i = 0; i < 40; i++)
        input[i] = signal(i);
    CHECK(cross(memory, OEQ_MEMORY_LENGTH(2, 1), gains, &run, spare[BASS], spare[HORN]) == 40, "a block of 40");
    CHECK(spare[BASS][at] == bass && spare[HORN][at] == horn, "at %zu: %d and %d, not %d and %d", at, (int)spare[BASS][at],
          (int)spare[HORN][at], (int)bass, (int)horn);
}

static int32_t large_at(long n)
{
    return n == 0 ? 100000 : 0;
}

static int32_t small_at(long n)
{
    return n == 0 ? 2 : 0;
}

/* A block of one frame with a split that may be wrong, or wrong gains behind or before it in the order. */
static int64_t with_split(int32_t split, size_t gain_count, int32_t gain)
{
    int32_t memory[OEQ_MEMORY_LENGTH(2, 1)], bass[1], horn[1], gain_list[3] = {OEQ_GAIN_UNITY, gain, OEQ_GAIN_UNITY};
    oeq_prepare(2, 1, memory, OEQ_MEMORY_LENGTH(2, 1));
    return oeq_crossover(memory, OEQ_MEMORY_LENGTH(2, 1), gain_list, gain_count, split, input, 1, bass, 1, horn, 1);
}

/* Those of rule 14.2 marked C, and blocks of nothing. */
static void readings(void)
{
    reading(OEQ_GAIN_UNITY, large_at, 0, 313, -313);
    reading(OEQ_GAIN_UNITY, large_at, 2, -1338, 1338);
    reading(OEQ_GAIN_UNITY, large_at, 9, 50000, 50000);
    reading(OEQ_GAIN_UNITY / 2, small_at, 9, 1, 1);
    reading(OEQ_GAIN_UNITY, peak_at, 18, OEQ_SAMPLE_MOST, -3375575);
    CHECK(with_split(1, 2, OEQ_GAIN_MOST) == 1, "split 1");
    IS_REFUSAL(with_split(0, 2, OEQ_GAIN_UNITY), 10);
    IS_REFUSAL(with_split(2, 2, OEQ_GAIN_UNITY), 10);
    IS_REFUSAL(with_split(0, 3, OEQ_GAIN_UNITY), 4);
    IS_REFUSAL(with_split(0, 2, OEQ_GAIN_MOST + 1), 10);
    IS_REFUSAL(with_split(1, 2, OEQ_GAIN_MOST + 1), 5);
    IS_REFUSAL(oeq_crossover(NULL, 0, NULL, 0, 1, NULL, 0, NULL, 0, NULL, 0), 31);
    int32_t memory[OEQ_MEMORY_LENGTH(2, 1)];
    oeq_prepare(2, 1, memory, OEQ_MEMORY_LENGTH(2, 1));
    CHECK(oeq_crossover(memory, OEQ_MEMORY_LENGTH(2, 1), gains, 2, 1, NULL, 0, NULL, 0, NULL, 0) == 0, "a block of none");
}

void crossovers(int rounds)
{
    readings();
    for (int round = 0; round < rounds; round++)
        for (int bands = 2; bands <= 10; bands++) {
            mixed(bands, 1 + round % 2, round % 4 > 1);
            adds_up(bands, 1 + round % 2, round % 4 > 1);
        }
}

/* Each side of a stereo run is a run of one channel fed with that side, wherever the blocks are cut; exchanged sides give exchanged
   outputs; a side's outputs do not depend on the other side. Told by the library alone: no model stands beside it. */
#include "check.h"
#include "lent.h"
#include "octave_eq.h"
#include "parts.h"
#include "signals.h"

/* More frames than twice round the longest line. Gains hold for a span of frames, so that runs may be cut apart within it. */
enum { MOST_FRAMES = 12000, SPAN = 1500, SPANS = MOST_FRAMES / SPAN };

static int32_t gains[SPANS][OEQ_BANDS_MOST];

/* A run, its input taken from one signal or interleaved from two, and what it gave. */
struct run {
    struct places memory;
    int bands, channels;
    int32_t output[OEQ_CHANNELS_MOST * MOST_FRAMES];
};

/* Runs so many frames from prepared memory in blocks cut at random. A side that is NULL is not there. */
static void play(struct run *run, int bands, const int32_t *left, const int32_t *right, long frames)
{
    static int32_t input[OEQ_CHANNELS_MOST * OEQ_BLOCK_MOST];
    size_t channels = right ? 2 : 1;
    run->bands = bands;
    run->channels = (int)channels;
    run->memory = places_new((size_t)length_of(bands, run->channels));
    CHECK(!oeq_is_refusal(oeq_prepare(bands, run->channels, run->memory.lent, run->memory.length)), "%d bands", bands);
    for (long n = 0; n < frames;) {
        long cut = (long)random_cut(), end = (n / SPAN + 1) * SPAN;
        if (cut > frames - n)
            cut = frames - n;
        if (cut > end - n)
            cut = end - n;
        for (long i = 0; i < cut; i++) {
            input[channels * (size_t)i] = left[n + i];
            if (right)
                input[channels * (size_t)i + 1] = right[n + i];
        }
        size_t length = channels * (size_t)cut;
        int64_t answer = oeq_block(run->memory.lent, run->memory.length, gains[n / SPAN], (size_t)bands, input, length,
                                   run->output + channels * (size_t)n, length);
        CHECK(answer == cut, "answered %lld for a block of %ld", (long long)answer, cut);
        n += cut;
    }
}

/* A side of a run is a side of another: the outputs, the position and the lines. */
static void same_side(const char *what, const struct run *a, int side, const struct run *b, int other, long frames)
{
    for (long n = 0; n < frames; n++) {
        int32_t x = a->output[a->channels * n + side], y = b->output[b->channels * n + other];
        CHECK(x == y, "%s: %d bands, frame %ld: %d, not %d", what, a->bands, n, (int)x, (int)y);
    }
    long places = side_length(a->bands);
    CHECK(a->memory.lent[2] == b->memory.lent[2], "%s: %d bands, the position", what, a->bands);
    CHECK(memcmp(a->memory.lent + 3 + side * places, b->memory.lent + 3 + other * places, (size_t)places * sizeof(int32_t)) == 0,
          "%s: %d bands, the lines", what, a->bands);
}

/* A silent side stays silent, and so do its lines. */
static void silent_side(const struct run *run, int side, long frames)
{
    long places = side_length(run->bands);
    for (long n = 0; n < frames; n++)
        CHECK(run->output[run->channels * n + side] == 0, "%d bands, frame %ld of the silent side %d", run->bands, n, side);
    for (long i = 0; i < places; i++)
        CHECK(run->memory.lent[3 + side * places + i] == 0, "%d bands, place %ld of the silent side %d", run->bands, i, side);
}

static void draw(int32_t *signal, int kind, long frames)
{
    for (long n = 0; n < frames; n++)
        signal[n] = signal_at(kind, n);
}

void sides(int rounds)
{
    enum { SILENCE = 3 };
    static int32_t left[MOST_FRAMES], right[MOST_FRAMES], third[MOST_FRAMES];
    static struct run stereo, exchanged, alone, right_alone, beside_third;
    for (int round = 0; round < rounds; round++)
        for (int bands = 2; bands <= 10; bands++) {
            long frames = 2 * line_length(bands) + 400 + (long)random_below(1000);
            int turn = (round + bands) % 5; /* 0: a silent right, 1: a silent left, 2: equal sides, else any two */
            for (int span = 0; span < SPANS; span++)
                for (int m = 0; m < bands; m++)
                    gains[span][m] = random_gain();
            draw(left, turn == 1 ? SILENCE : (int)random_below(SIGNALS), frames);
            draw(right, turn == 0 ? SILENCE : (int)random_below(SIGNALS), frames);
            draw(third, (int)random_below(SIGNALS), frames);
            if (turn == 2)
                memcpy(right, left, sizeof right);
            play(&stereo, bands, left, right, frames);
            play(&exchanged, bands, right, left, frames);
            play(&alone, bands, left, NULL, frames);
            play(&right_alone, bands, right, NULL, frames);
            play(&beside_third, bands, left, third, frames);
            same_side("the left alone", &stereo, 0, &alone, 0, frames);
            same_side("the right alone", &stereo, 1, &right_alone, 0, frames);
            same_side("exchanged", &stereo, 0, &exchanged, 1, frames);
            same_side("exchanged", &stereo, 1, &exchanged, 0, frames);
            same_side("another right side", &stereo, 0, &beside_third, 0, frames);
            if (turn == 0)
                silent_side(&stereo, 1, frames);
            if (turn == 1)
                silent_side(&stereo, 0, frames);
            if (turn == 2)
                same_side("equal sides", &stereo, 0, &stereo, 1, frames);
            places_free(stereo.memory);
            places_free(exchanged.memory);
            places_free(alone.memory);
            places_free(right_alone.memory);
            places_free(beside_third.memory);
        }
}

/* Refusal 8 and its place: that of the first bad sample in the block, counted in samples. */
#include <string.h>
#include "check.h"
#include "octave_eq.h"
#include "parts.h"
#include "signals.h"

enum { MOST = 2 * OEQ_BLOCK_MOST, PLACES = OEQ_MEMORY_LENGTH(2, 2) };

/* A block of two bands is refused 8 at that place, and nothing has changed. */
static void bad_at(int channels, const int32_t *input, size_t length, size_t place)
{
    static const int32_t unity[2] = {OEQ_GAIN_UNITY, OEQ_GAIN_UNITY};
    static int32_t memory[PLACES], prepared[PLACES], output[MOST], before[MOST];
    size_t places = (size_t)length_of(2, channels);
    oeq_prepare(2, channels, memory, places);
    memcpy(prepared, memory, sizeof memory);
    memset(output, 0x55, sizeof output);
    memset(before, 0x55, sizeof before);
    int64_t answer = oeq_block(memory, places, unity, 2, input, length, output, length);
    IS_REFUSAL_AT(answer, 8, place);
    CHECK(oeq_refusal_number(answer) == 8 && oeq_refusal_place(answer) == (int64_t)place, "the header's helpers, place %zu", place);
    CHECK(memcmp(memory, prepared, sizeof memory) == 0 && memcmp(output, before, sizeof output) == 0, "place %zu", place);
}

/* The first bad one at every place of a block: alone, with a second one behind it, and with nothing but bad ones behind it. */
static void every_place(int channels, size_t frames)
{
    static int32_t input[MOST];
    size_t length = frames * (size_t)channels;
    memset(input, 0, sizeof input);
    for (size_t i = 0; i < length; i++) {
        size_t second = i + random_below((uint32_t)(length - i));
        input[i] = wrong_sample();
        bad_at(channels, input, length, i);
        input[second] = wrong_sample();
        bad_at(channels, input, length, i);
        input[i] = input[second] = 0;
    }
    for (size_t i = length; i-- > 0;) {
        input[i] = wrong_sample();
        bad_at(channels, input, length, i);
    }
}

void bad_samples(void)
{
    static const size_t frames[] = {1, 2, 33, OEQ_BLOCK_MOST};
    for (size_t i = 0; i < sizeof frames / sizeof *frames; i++)
        for (int channels = 1; channels <= 2; channels++)
            every_place(channels, frames[i]);
}

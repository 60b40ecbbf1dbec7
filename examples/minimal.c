/* Eight bands, left and right, gains in decibels, a click on each side in blocks of 64 frames: prints the output around the delay.
 *
 *     (cd crates/capi && rt lib)
 *     cc -Iinclude examples/minimal.c crates/capi/out/libcapi.a -o minimal && ./minimal
 */
#include <stdio.h>
#include "octave_eq.h"

enum { BANDS = 8, CHANNELS = 2, BLOCK = 64, BLOCKS = 20, SAMPLES = BLOCK * CHANNELS };

static int refused(const char *call, int64_t answer)
{
    if (!oeq_is_refusal(answer))
        return 0;
    fprintf(stderr, "%s: refused %d, place %lld\n", call, oeq_refusal_number(answer), (long long)oeq_refusal_place(answer));
    return 1;
}

int main(void)
{
    static int32_t memory[OEQ_MEMORY_LENGTH(BANDS, CHANNELS)];
    static const float decibels[BANDS] = {6.0f, 3.5f, 0.0f, -3.5f, -6.0f, 0.0f, 2.5f, -12.0f};
    int32_t gains[BANDS], input[SAMPLES], output[SAMPLES];
    int64_t delay, answer;
    int band, block, i;

    delay = oeq_prepare(BANDS, CHANNELS, memory, OEQ_MEMORY_LENGTH(BANDS, CHANNELS));
    if (refused("oeq_prepare", delay))
        return 1;
    printf("delay %lld\n", (long long)delay);

    for (band = 0; band < BANDS; band++) {
        answer = oeq_gain_decibels(decibels[band]);
        if (refused("oeq_gain_decibels", answer))
            return 1;
        gains[band] = (int32_t)answer;
        printf("band %d: %5.1f dB, gain %d\n", band + 1, decibels[band], gains[band]);
    }

    for (block = 0; block < BLOCKS; block++) {
        /* Frames, left first: the right's click is softer and two frames later. */
        for (i = 0; i < BLOCK; i++) {
            input[CHANNELS * i] = block == 0 && i == 0 ? OEQ_SAMPLE_MOST : 0;
            input[CHANNELS * i + 1] = block == 0 && i == 2 ? OEQ_SAMPLE_LEAST / 4 : 0;
        }
        answer = oeq_block(memory, OEQ_MEMORY_LENGTH(BANDS, CHANNELS), gains, BANDS, input, SAMPLES, output, SAMPLES);
        if (refused("oeq_block", answer))
            return 1;
        for (i = 0; i < BLOCK; i++) {
            int64_t n = (int64_t)block * BLOCK + i;
            if (n >= delay - 4 && n <= delay + 4)
                printf("output %lld: %d %d\n", (long long)n, output[CHANNELS * i], output[CHANNELS * i + 1]);
        }
    }

    /* A refusal changes nothing, and says what was wrong. */
    gains[3] = OEQ_GAIN_MOST + 1;
    answer = oeq_block(memory, OEQ_MEMORY_LENGTH(BANDS, CHANNELS), gains, BANDS, input, SAMPLES, output, SAMPLES);
    printf("gain %d: refused %d\n", gains[3], oeq_refusal_number(answer));

    /* A bad sample is told by its place: here the right one of frame 20. */
    gains[3] = OEQ_GAIN_UNITY;
    input[CHANNELS * 20 + 1] = OEQ_SAMPLE_MOST + 1;
    answer = oeq_block(memory, OEQ_MEMORY_LENGTH(BANDS, CHANNELS), gains, BANDS, input, SAMPLES, output, SAMPLES);
    printf("sample %d: refused %d, place %lld\n", OEQ_SAMPLE_MOST + 1, oeq_refusal_number(answer), (long long)oeq_refusal_place(answer));
    return 0;
}

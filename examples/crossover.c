/* Eight bands, one channel, split behind band 5: at 48,000 samples a second bass below 3,000 Hz and a horn above. A click and a step in three
 * blocks of 512 frames: prints both feeds around the delay, and that at unity they add up to the input.
 *
 *     (cd crates/capi && rt lib)
 *     cc -Iinclude examples/crossover.c crates/capi/out/libcapi.a -o crossover && ./crossover
 */
#include <stdio.h>
#include "octave_eq.h"

enum { BANDS = 8, SPLIT = 5, BLOCK = 512, BLOCKS = 3, MEMORY = OEQ_MEMORY_LENGTH(BANDS, 1) };

static int32_t memory[MEMORY], gains[BANDS];

/* A block into both feeds: they, the input and each other are different places, all of one length. */
static int64_t cross(int32_t split, const int32_t *input, int32_t *bass, int32_t *horn)
{
    return oeq_crossover(memory, MEMORY, gains, BANDS, split, input, BLOCK, bass, BLOCK, horn, BLOCK);
}

/* A click at frame 0, and from frame 200 on a step. */
static int32_t signal_at(int64_t n)
{
    return n == 0 ? OEQ_SAMPLE_MOST / 2 : n >= 200 ? 1000000 : 0;
}

int main(void)
{
    int32_t input[BLOCK], bass[BLOCK], horn[BLOCK];
    int64_t delay = oeq_prepare(BANDS, 1, memory, MEMORY), answer, added = 0;
    int band, block, i;

    if (oeq_is_refusal(delay))
        return 1;
    printf("delay of both feeds %lld\n", (long long)delay);
    for (band = 0; band < BANDS; band++)
        gains[band] = OEQ_GAIN_UNITY;

    for (block = 0; block < BLOCKS; block++) {
        for (i = 0; i < BLOCK; i++)
            input[i] = signal_at((int64_t)block * BLOCK + i);
        answer = cross(SPLIT, input, bass, horn);
        if (oeq_is_refusal(answer)) {
            fprintf(stderr, "refused %d, place %lld\n", oeq_refusal_number(answer), (long long)oeq_refusal_place(answer));
            return 1;
        }
        for (i = 0; i < BLOCK; i++) {
            int64_t n = (int64_t)block * BLOCK + i;
            int32_t late = n < delay ? 0 : signal_at(n - delay);
            added += bass[i] + horn[i] == late;
            if ((n >= delay - 3 && n <= delay + 3) || n == delay + 300)
                printf("frame %lld: bass %d, horn %d, input %d\n", (long long)n, bass[i], horn[i], late);
        }
    }
    printf("bass + horn is the input, late, in %lld frames of %d\n", (long long)added, BLOCK * BLOCKS);

    /* The horn off: its feed is silent, and the bass feed does not notice. */
    for (band = SPLIT; band < BANDS; band++)
        gains[band] = (int32_t)oeq_gain_off();
    cross(SPLIT, input, bass, horn);
    printf("horn off: bass %d, horn %d\n", bass[BLOCK - 1], horn[BLOCK - 1]);

    /* A split that would leave a feed no band is refused, and nothing has changed. */
    printf("split 0: refused %d\n", oeq_refusal_number(cross(0, input, bass, horn)));
    printf("split %d: refused %d\n", BANDS, oeq_refusal_number(cross(BANDS, input, bass, horn)));
    printf("still: bass %d, horn %d\n", bass[BLOCK - 1], horn[BLOCK - 1]);
    return 0;
}

/* What the parts that run the equaliser share: lengths by the rules, and signals, gains and cuts by the generator. */
#ifndef SIGNALS_H
#define SIGNALS_H

#include "check.h"
#include "octave_eq.h"

enum { SIGNALS = 7 };

static inline long line_length(int bands)
{
    return 9L << (bands - 1);
}

static inline long side_length(int bands)
{
    return (bands - 1) * line_length(bands);
}

static inline long length_of(int bands, int channels)
{
    return 3 + channels * side_length(bands);
}

/* One of several kinds of signal. */
static inline int32_t signal_at(int kind, long n)
{
    switch (kind) {
    case 0: return (int32_t)random_below(1u << 24) - (1 << 23);                  /* noise */
    case 1: return random_bits() & 1 ? OEQ_SAMPLE_MOST : OEQ_SAMPLE_LEAST;        /* full scale */
    case 2: return n % 977 == 3 ? OEQ_SAMPLE_LEAST : 0;                          /* impulses */
    case 3: return 0;                                                             /* silence */
    case 4: return n / 700 % 2 ? OEQ_SAMPLE_LEAST : OEQ_SAMPLE_MOST;              /* steps */
    case 5: return (int32_t)random_below(5) - 2;                                  /* ties */
    default: return n % 2 ? OEQ_SAMPLE_MOST : OEQ_SAMPLE_LEAST;                   /* the highest tone */
    }
}

/* One that is out of range. */
static inline int32_t wrong_sample(void)
{
    static const int32_t wrong[] = {OEQ_SAMPLE_LEAST - 1, OEQ_SAMPLE_MOST + 1, INT32_MIN, INT32_MAX};
    return one_of(wrong, 4);
}

static inline int32_t random_gain(void)
{
    switch (random_below(5)) {
    case 0: return 0;
    case 1: return OEQ_GAIN_MOST;
    case 2: return OEQ_GAIN_UNITY;
    default: return (int32_t)random_below(OEQ_GAIN_MOST + 1);
    }
}

/* Frames of a block. */
static inline size_t random_cut(void)
{
    switch (random_below(8)) {
    case 0: return 0;
    case 1: return 1;
    case 2: return OEQ_BLOCK_MOST;
    case 3: return 1 + random_below(OEQ_BLOCK_MOST);
    default: return 1 + random_below(300);
    }
}

#endif

/* Both gain commands over bit patterns of floats. */
#include <math.h>
#include <string.h>
#include "check.h"
#include "octave_eq.h"
#include "parts.h"

static float float_of(uint32_t bits)
{
    float x;
    memcpy(&x, &bits, sizeof x);
    return x;
}

static int gain_of_half_decibels(int n)
{
    return (int)floor(4096.0 * pow(10.0, n / 40.0) + 0.5);
}

static int gain_of_factor(double factor)
{
    return (int)floor(factor * 4096.0 + 0.5);
}

static void try_decibels(float x)
{
    double halves = (double)x * 2.0;
    int64_t answer = oeq_gain_decibels(x);
    if (halves >= -24.0 && halves <= 24.0 && halves == floor(halves))
        CHECK(answer == gain_of_half_decibels((int)halves), "%a dB: %lld", x, (long long)answer);
    else
        CHECK(answer == INT64_MIN + 11, "%a dB: %lld", x, (long long)answer);
}

static void try_factor(float x)
{
    int64_t answer = oeq_gain_factor(x);
    if (x >= 0.0f && x <= 4.0f)
        CHECK(answer == gain_of_factor(x), "factor %a: %lld", x, (long long)answer);
    else
        CHECK(answer == INT64_MIN + 12, "factor %a: %lld", x, (long long)answer);
}

/* A float and its neighbours, with both signs. */
static void try_near(float x)
{
    float near[3] = {x, nextafterf(x, INFINITY), nextafterf(x, -INFINITY)};
    for (int i = 0; i < 3; i++) {
        try_decibels(near[i]);
        try_factor(near[i]);
        try_decibels(-near[i]);
        try_factor(-near[i]);
    }
}

void gain_commands(long patterns)
{
    static const uint32_t odd[] = {0, 0x80000000u, 1, 0x80000001u, 0x007fffff, 0x00800000, 0x7f7fffff, 0x7f800000,
                                   0xff800000u, 0x7f800001, 0x7fc00000, 0xffc00000u, 0xffffffffu, 0x7fffffff};
    for (size_t i = 0; i < sizeof odd / sizeof *odd; i++) {
        try_decibels(float_of(odd[i]));
        try_factor(float_of(odd[i]));
    }
    for (int n = -30; n <= 30; n++)
        try_near((float)n / 2.0f);
    for (int half = 0; half <= 32770; half++) /* every tie of the factor */
        try_near((float)half / 8192.0f);
    for (long i = 0; i < patterns; i++) {
        uint32_t bits = (uint32_t)random_bits();
        try_decibels(float_of(bits));
        /* exponents around the accepted ones, so that half of the factors are */
        if (i & 1)
            bits = (bits & 0x007fffff) | (110 + random_below(21)) << 23;
        try_factor(float_of(bits));
    }
    CHECK(oeq_gain_off() == 0, "off");
}

/* The single calls on floats: edges of every exponent, every tie between two samples, and every sample there and back. */
#include "check.h"
#include "float_model.h"
#include "octave_eq.h"
#include "parts.h"

static void try_float(uint32_t bits)
{
    int64_t answer = oeq_sample_from_float(float_of(bits));
    if (no_number(bits))
        IS_REFUSAL(answer, 41);
    else
        CHECK(answer == model_sample(bits), "float %08x: %lld, not %d", (unsigned)bits, (long long)answer, (int)model_sample(bits));
}

static void every_exponent(void)
{
    static const uint32_t edges[] = {0, 1, 0x3fffff, 0x400000, 0x400001, 0x7ffffe, 0x7fffff};
    for (uint32_t exponent = 0; exponent < 256; exponent++)
        for (size_t i = 0; i < sizeof edges / sizeof *edges + 8; i++) {
            uint32_t digits = i < sizeof edges / sizeof *edges ? edges[i] : random_below(1u << 23);
            try_float(exponent << 23 | digits);
            try_float(0x80000000u | exponent << 23 | digits);
        }
}

/* Any patterns, and as many with exponents that give samples within the range. */
static void any_floats(long patterns)
{
    for (long i = 0; i < patterns; i++) {
        uint32_t bits = (uint32_t)random_bits();
        try_float(bits);
        try_float((bits & 0x807fffffu) | (100 + random_below(28)) << 23);
    }
}

/* k and a half goes away from zero, but for the largest, which is limited. */
static void every_tie(void)
{
    for (int32_t k = 0; k <= OEQ_SAMPLE_MOST; k++) {
        float tie = ((float)k * 2.0f + 1.0f) / 16777216.0f;
        int32_t above = k < OEQ_SAMPLE_MOST ? k + 1 : k;
        CHECK(oeq_sample_from_float(tie) == above, "the tie above %d", (int)k);
        CHECK(oeq_sample_from_float(-tie) == -k - 1, "the tie below %d", -(int)k);
    }
}

static void every_sample(void)
{
    for (int32_t z = OEQ_SAMPLE_LEAST; z <= OEQ_SAMPLE_MOST; z++) {
        float value = 0.75f;
        CHECK(oeq_sample_to_float(z, &value) == 1, "sample %d", (int)z);
        CHECK(bits_of(value) == bits_of((float)z / 8388608.0f), "sample %d: %08x", (int)z, (unsigned)bits_of(value));
        CHECK(oeq_sample_from_float(value) == z, "sample %d and back", (int)z);
    }
    float zero = -1.0f;
    oeq_sample_to_float(0, &zero);
    CHECK(bits_of(zero) == 0, "0 is %08x", (unsigned)bits_of(zero));
}

/* A number out of range, and the place is as it was, whatever it held. */
static void outside(void)
{
    static const int32_t numbers[] = {-8388609, 8388608, -16777216, 16777215, 1 << 24, INT32_MIN, INT32_MAX};
    static const uint32_t held[] = {0, 0x80000000u, 0x3f800000, 0x7f800001, 0xffffffffu};
    for (size_t i = 0; i < sizeof numbers / sizeof *numbers; i++)
        for (size_t j = 0; j < sizeof held / sizeof *held; j++) {
            float value;
            memcpy(&value, &held[j], sizeof value);
            IS_REFUSAL(oeq_sample_to_float(numbers[i], &value), 19);
            CHECK(memcmp(&value, &held[j], sizeof value) == 0, "a refusal wrote over %08x", (unsigned)held[j]);
        }
}

void float_calls(long patterns)
{
    every_exponent();
    any_floats(patterns);
    every_tie();
    every_sample();
    outside();
}

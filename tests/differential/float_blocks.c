/* Blocks of floats: what is accepted, lengths that differ, and the first float that is no number. */
#include "check.h"
#include "float_model.h"
#include "lent.h"
#include "octave_eq.h"
#include "parts.h"

enum { MOST = 300 };

static const uint32_t bad[] = {0x7f800000, 0xff800000u, 0x7fc00000, 0xffc00001u, 0x7f800001, 0xff800001u, 0x7fffffff, 0xffffffffu};

static uint32_t any_bad(void)
{
    return bad[random_below(sizeof bad / sizeof *bad)];
}

/* A float that is a number, now and then one of any exponent. */
static uint32_t any_number(void)
{
    uint32_t exponent = random_below(4) ? 100 + random_below(28) : random_below(255);
    return (uint32_t)random_bits() >> 31 << 31 | exponent << 23 | random_below(1u << 23);
}

/* The call on floats of these bits, with places for the samples. */
static int64_t called(const uint32_t *floats, size_t length, struct places samples)
{
    static float values[MOST];
    memcpy(values, floats, length * sizeof *values);
    int64_t answer = oeq_samples_from_floats(length ? values : NULL, length, samples.length ? samples.lent : NULL, samples.length);
    CHECK(memcmp(values, floats, length * sizeof *values) == 0, "the floats have changed");
    return answer;
}

/* Refused with that number and place, and no sample has changed. */
static void refused(const uint32_t *floats, size_t length, size_t places, int number, size_t place)
{
    struct places samples = places_new(places);
    places_mark(samples);
    int64_t answer = called(floats, length, samples);
    IS_REFUSAL_AT(answer, number, place);
    CHECK(oeq_refusal_number(answer) == number && oeq_refusal_place(answer) == (int64_t)place, "the header's helpers, place %zu", place);
    CHECK(places_same(samples), "refusal %d wrote", number);
    places_free(samples);
}

static void accepted(const uint32_t *floats, size_t length)
{
    struct places samples = places_new(length);
    places_mark(samples);
    int64_t answer = called(floats, length, samples);
    CHECK(answer == (int64_t)length, "%zu floats answered %lld", length, (long long)answer);
    for (size_t i = 0; i < length; i++)
        CHECK(samples.lent[i] == model_sample(floats[i]), "float %08x at %zu: %d", (unsigned)floats[i], i, (int)samples.lent[i]);
    CHECK(places_around_same(samples), "written outside");
    places_free(samples);
}

/* The block with bad floats at a place and at another behind it, or at the same. */
static void bad_at(uint32_t *floats, size_t length, size_t first, size_t second)
{
    uint32_t one = floats[first], two = floats[second];
    floats[first] = any_bad();
    floats[second] = any_bad();
    refused(floats, length, length, 41, first);
    refused(floats, length, length + 1, 6, 0);
    floats[second] = two;
    floats[first] = one;
}

void float_blocks(int rounds)
{
    static uint32_t floats[MOST];
    static const uint32_t reading[] = {0, 0x7f800000, 0, 0x7fc00000, 0}; /* the rule book's: an infinity at 1, a NaN at 3 */
    refused(reading, 5, 5, 41, 1);
    accepted(floats, 0);
    for (size_t length = 0; length <= 6; length++)
        for (size_t places = 0; places <= 6; places++)
            if (length != places)
                refused(floats, length, places, 6, 0);
    for (int round = 0; round < rounds; round++) {
        size_t length = 1 + random_below(MOST), middle = random_below((uint32_t)length);
        for (size_t i = 0; i < length; i++)
            floats[i] = any_number();
        accepted(floats, length);
        bad_at(floats, length, 0, 0);
        bad_at(floats, length, length - 1, length - 1);
        bad_at(floats, length, middle, middle);
        bad_at(floats, length, middle, middle + random_below((uint32_t)(length - middle)));
        bad_at(floats, length, 0, length - 1);
    }
}

/* The memory length and prepare: each refusal with the later ones there too, and what prepare leaves. */
#include "check.h"
#include "lent.h"
#include "octave_eq.h"
#include "parts.h"
#include "signals.h"

#define COUNT(list) (sizeof(list) / sizeof *(list))

static const int32_t outside_bands[] = {INT32_MIN, -10, -2, -1, 0, 1, 11, 12, 33, 66, 258, INT32_MAX};
static const int32_t outside_channels[] = {INT32_MIN, -2, -1, 0, 3, 4, 257, 258, INT32_MAX};
static const int32_t any_channels[] = {1, 2, INT32_MIN, -1, 0, 3, INT32_MAX};

/* prepare on so many places is refused, and none has changed. */
static void prepare_refused(int number, int32_t bands, int32_t channels, long length)
{
    struct places memory = places_new((size_t)length);
    places_mark(memory);
    IS_REFUSAL(oeq_prepare(bands, channels, length ? memory.lent : NULL, memory.length), number);
    CHECK(places_same(memory), "%d bands, %d channels, %ld places", (int)bands, (int)channels, length);
    places_free(memory);
}

/* 1, whatever the channel count and the length. */
static void band_counts(void)
{
    for (size_t i = 0; i < COUNT(outside_bands); i++)
        for (size_t j = 0; j < COUNT(any_channels); j++) {
            int32_t bands = outside_bands[i], channels = any_channels[j];
            IS_REFUSAL(oeq_memory_length(bands, channels), 1);
            prepare_refused(1, bands, channels, 0);
            prepare_refused(1, bands, channels, 3); /* what the formula gives to one band */
            prepare_refused(1, bands, channels, length_of(2, 1));
            prepare_refused(1, bands, channels, (long)random_below(100));
        }
    prepare_refused(1, 11, 1, length_of(11, 1));
    prepare_refused(1, 11, 2, length_of(11, 2));
}

/* 9, whatever the length. */
static void channel_counts(int bands)
{
    for (size_t i = 0; i < COUNT(outside_channels); i++) {
        int32_t channels = outside_channels[i];
        IS_REFUSAL(oeq_memory_length(bands, channels), 9);
        prepare_refused(9, bands, channels, 0);
        prepare_refused(9, bands, channels, length_of(bands, 1));
        prepare_refused(9, bands, channels, length_of(bands, 2));
        prepare_refused(9, bands, channels, (long)random_below(100));
    }
    for (int channels = 0; channels <= 4; channels++) /* what the formula gives to them */
        if (channels < 1 || channels > 2)
            prepare_refused(9, bands, channels, length_of(bands, channels));
}

static void prepared(int bands, int channels)
{
    long length = length_of(bands, channels);
    struct places memory = places_new((size_t)length);
    places_mark(memory);
    CHECK(oeq_prepare(bands, channels, memory.lent, memory.length) == 9 * ((1 << (bands - 1)) - 1), "%d bands", bands);
    CHECK(memory.lent[0] == bands && memory.lent[1] == channels, "%d bands, %d channels", bands, channels);
    for (long i = 2; i < length; i++)
        CHECK(memory.lent[i] == 0, "%d bands, %d channels, place %ld", bands, channels, i);
    CHECK(places_around_same(memory), "%d bands, %d channels", bands, channels);
    places_free(memory);
}

void lengths(void)
{
    band_counts();
    for (int bands = 2; bands <= 10; bands++) {
        channel_counts(bands);
        for (int channels = 1; channels <= 2; channels++) {
            long length = length_of(bands, channels);
            CHECK(oeq_memory_length(bands, channels) == length, "%d bands, %d channels", bands, channels);
            CHECK(OEQ_MEMORY_LENGTH(bands, channels) == length, "%d bands, %d channels", bands, channels);
            CHECK(length <= channels * 46000L && (bands > 8 || length <= channels * 8100L), "rule 5.3's bounds");
            for (long wrong = 0; wrong <= 3; wrong++)
                prepare_refused(2, bands, channels, wrong);
            prepare_refused(2, bands, channels, length - 1);
            prepare_refused(2, bands, channels, length + 1);
            prepare_refused(2, bands, channels, length_of(bands, 3 - channels));
            prepare_refused(2, bands, channels, length_of(bands == 10 ? 9 : bands + 1, channels));
            prepared(bands, channels);
        }
    }
}

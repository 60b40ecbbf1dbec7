/* block and crossover with any faults at once: the first in rule 6.8's order is answered, and nothing lent has changed. */
#include "check.h"
#include "lent.h"
#include "octave_eq.h"
#include "parts.h"
#include "signals.h"

/* Faults as bits, in rule 6.8's order; the split's is the crossover's alone. */
enum { MEMORY = 1, GAIN_COUNT = 2, SPLIT = 4, GAIN = 8, LENGTHS = 16, TOO_LONG = 32, SAMPLE = 64, FAULTS = 7 };

/* The number for a memory, by rule 5.4: its counts, its length, its position; 0 if it is accepted. */
static int memory_fault(const int32_t *memory, size_t length)
{
    if (length < 2 || memory[0] < 2 || memory[0] > 10 || memory[1] < 1 || memory[1] > 2)
        return 31;
    if (length != (size_t)length_of(memory[0], memory[1]))
        return 32;
    return memory[2] < 0 || memory[2] >= line_length(memory[0]) ? 33 : 0;
}

static int is_bad(int32_t sample)
{
    return sample < OEQ_SAMPLE_LEAST || sample > OEQ_SAMPLE_MOST;
}

static size_t first_bad(const int32_t *input)
{
    size_t i = 0;
    while (!is_bad(input[i]))
        i++;
    return i;
}

/* Spoils what prepare made: a count, the length or the position. */
static void spoil_memory(struct places *memory, int bands, int channels)
{
    long size = line_length(bands);
    static const int32_t band_counts[] = {INT32_MIN, -1, 0, 1, 11, INT32_MAX};
    static const int32_t channel_counts[] = {INT32_MIN, -1, 0, 3, 257, INT32_MAX};
    switch (random_below(11)) {
    case 0: memory->lent[0] = one_of(band_counts, 6); break;
    case 1: memory->lent[0] = bands == 10 ? 9 : bands + 1; break;
    case 2: memory->lent[1] = one_of(channel_counts, 6); break;
    case 3: memory->lent[1] = 3 - channels; break;
    case 4: memory->lent[2] = (int32_t)size; break;
    case 5: memory->lent[2] = random_bits() & 1 ? -1 : INT32_MIN; break;
    case 6: memory->lent[2] = (int32_t)size + (int32_t)random_below((uint32_t)size); break; /* a place of the lines, but of the next one */
    case 7: memory->length -= memory->length > 0; break;
    case 8: memory->length += 1; break;
    case 9: memory->length = random_below(4); break; /* no room for the counts, or no more than that */
    default: memory->length = (size_t)(channels == 2 ? length_of(bands, 1) : length_of(bands, 1) - size); break;
    }
}

static void spoil_gain(int32_t *gains, size_t length)
{
    static const int32_t wrong[] = {-1, 16385, INT32_MIN, INT32_MAX};
    gains[random_below((uint32_t)length)] = one_of(wrong, 4);
}

static void spoil_sample(int32_t *input, size_t length)
{
    size_t place = random_bits() & 1 ? length - 1 : random_below((uint32_t)length);
    input[place] = wrong_sample();
}

static size_t another_length(size_t length)
{
    return length + (random_bits() & 1 ? (size_t)(1 + random_below(2)) : (size_t)-1);
}

/* Makes lengths wrong: that of the output differs, of a crossover that of either feed or of both, alike or with twice the input's in all; or
   none is whole frames; or both. */
static void spoil_lengths(int channels, int crossed, size_t *input, size_t *output, size_t *horn)
{
    uint32_t way = random_below(channels == 2 ? 4 : 2), which = crossed ? random_below(4) : 0;
    if (way >= 2)
        *horn = *output = *input += random_bits() & 1 ? 1 : -1;
    if (way == 2)
        return;
    if (which == 1)
        *horn = another_length(*horn);
    else
        *output = another_length(*output);
    if (which == 2)
        *horn = *output;
    else if (which == 3 && *output <= 2 * *input)
        *horn = 2 * *input - *output;
}

/* A split that leaves a feed no band. */
static int32_t wrong_split(int bands)
{
    const int32_t wrong[] = {0, -1, bands, bands + 1, -bands, 256 + 1, 65536 + 1, INT32_MIN, INT32_MIN + 1, INT32_MAX};
    return one_of(wrong, 10);
}

/* The earliest of a set of faults; the memory's has its own number. */
static int first_number(int set, int memory_number)
{
    static const int numbers[FAULTS] = {0, 4, 10, 5, 6, 7, 8};
    int bit = 0;
    while (!(set >> bit & 1))
        bit++;
    return bit == 0 ? memory_number : numbers[bit];
}

/* What is lent to a call with the faults of a set; of the memory's places so many are told. The plain call is lent no horn feed. */
struct call {
    int bands, channels, set, crossed;
    int32_t split;
    size_t frames, told;
    struct places memory, gains, input, output, horn;
};

/* Lengths with the faults of the set, and numbers that are right. */
static struct call call_new(int bands, int channels, int crossed, int set)
{
    struct call c = {.bands = bands, .channels = channels, .set = set, .crossed = crossed, .frames = 1 + random_below(100)};
    size_t gain_count = (size_t)bands;
    c.split = set & SPLIT ? wrong_split(bands) : 1 + (int32_t)random_below((uint32_t)bands - 1);
    if (set & TOO_LONG)
        c.frames = 4097 + (random_below(4) ? random_below(3000) : 0);
    else if (random_below(32) == 0)
        c.frames = 4096;
    if (set & GAIN_COUNT)
        gain_count = random_bits() & 1 ? (size_t)bands + 1 : (size_t)bands - 1;
    size_t length = c.frames * (size_t)channels, output_length = length, horn_length = length;
    if (set & LENGTHS)
        spoil_lengths(channels, crossed, &length, &output_length, &horn_length);
    c.memory = places_new((size_t)oeq_memory_length(bands, channels));
    c.gains = places_new(gain_count);
    c.input = places_new(length);
    c.output = places_new(output_length);
    c.horn = places_new(crossed ? horn_length : 0);
    oeq_prepare(bands, channels, c.memory.lent, c.memory.length);
    for (size_t i = 0; i < gain_count; i++)
        c.gains.lent[i] = (int32_t)random_below(16385);
    for (size_t i = 0; i < length; i++)
        c.input.lent[i] = (int32_t)random_below(1u << 24) - (1 << 23);
    return c;
}

/* The faults of the set that are not lengths: up to three of the memory and three bad samples. */
static void spoil(struct call *c)
{
    struct places memory = c->memory;
    while (c->set & MEMORY && memory_fault(memory.lent, memory.length) == 0)
        for (int ways = 1 + (int)random_below(3); ways > 0; ways--)
            spoil_memory(&memory, c->bands, c->channels);
    c->told = memory.length;
    if (c->set & GAIN)
        spoil_gain(c->gains.lent, c->gains.length);
    for (int ways = c->set & SAMPLE ? 1 + (int)random_below(3) : 0; ways > 0; ways--)
        spoil_sample(c->input.lent, c->input.length);
}

/* The answer, and what has changed since the marks. */
static void check_answer(const struct call *c, int64_t answer)
{
    if (c->set == 0) {
        CHECK(answer == (int64_t)c->frames, "answered %lld", (long long)answer);
        CHECK(places_around_same(c->memory) && places_around_same(c->output) && places_around_same(c->horn), "%d bands, %d channels",
              c->bands, c->channels);
    } else {
        int number = first_number(c->set, memory_fault(c->memory.lent, c->told));
        size_t place = number == 8 ? first_bad(c->input.lent) : 0;
        IS_REFUSAL_AT(answer, number, place);
        CHECK(oeq_is_refusal(answer) && oeq_refusal_number(answer) == number && oeq_refusal_place(answer) == (int64_t)place,
              "the header's helpers");
        CHECK(places_same(c->memory) && places_same(c->output) && places_same(c->horn), "%d bands, %d channels, refused %d", c->bands,
              c->channels, number);
    }
    CHECK(places_same(c->gains) && places_same(c->input), "%d bands, %d channels", c->bands, c->channels);
}

static int64_t answer_of(const struct call *c)
{
    if (c->crossed)
        return oeq_crossover(c->memory.lent, c->told, c->gains.lent, c->gains.length, c->split, c->input.lent, c->input.length,
                             c->output.lent, c->output.length, c->horn.lent, c->horn.length);
    return oeq_block(c->memory.lent, c->told, c->gains.lent, c->gains.length, c->input.lent, c->input.length, c->output.lent, c->output.length);
}

static void call_with(int bands, int channels, int crossed, int set)
{
    struct call c = call_new(bands, channels, crossed, set);
    struct places *lent[] = {&c.memory, &c.gains, &c.input, &c.output, &c.horn};
    spoil(&c);
    for (int i = 0; i < 5; i++)
        places_mark(*lent[i]);
    check_answer(&c, answer_of(&c));
    for (int i = 0; i < 5; i++)
        places_free(*lent[i]);
}

static const int32_t unity[11] = {4096, 4096, 4096, 4096, 4096, 4096, 4096, 4096, 4096, 4096, 4096};

/* A block of so many samples through a used memory of two bands: the refusal, or 0, and then nothing has changed. */
static void block_of(int number, int channels, size_t length)
{
    struct places memory = places_new((size_t)length_of(2, channels));
    struct places input = places_new(length), output = places_new(length);
    int32_t before[6] = {8388607, -8388608, 100000, -1, 7, 0}, after[6];
    oeq_prepare(2, channels, memory.lent, memory.length);
    CHECK(oeq_block(memory.lent, memory.length, unity, 2, before, 6, after, 6) == 6 / channels, "%d channels", channels);
    for (size_t i = 0; i < length; i++)
        input.lent[i] = (int32_t)i;
    places_mark(memory);
    places_mark(output);
    int64_t answer = oeq_block(memory.lent, memory.length, unity, 2, input.lent, length, output.lent, length);
    if (number == 0) {
        CHECK(answer == (int64_t)(length / (size_t)channels), "%d channels, %zu samples: %lld", channels, length, (long long)answer);
    } else {
        IS_REFUSAL(answer, number);
        CHECK(places_same(memory) && places_same(output), "%d channels, %zu samples, refused %d", channels, length, number);
    }
    places_free(memory);
    places_free(input);
    places_free(output);
}

/* Whole frames, at most 4,096 of them: lengths around nothing, 4,096 and 8,192 samples. */
static void block_lengths(void)
{
    for (size_t start = 0; start <= 8192; start += 4096)
        for (size_t length = start < 6 ? start : start - 6; length <= start + 6; length++) {
            block_of(length > 4096 ? 7 : 0, 1, length);
            block_of(length % 2 ? 6 : length > 8192 ? 7 : 0, 2, length);
        }
}

/* Counts that are not allowed, in memory as long as the formula would give them, with as many gains. */
static void counts_with_their_length(void)
{
    static const int counts[][2] = {{1, 1}, {1, 2}, {2, 0}, {10, 0}, {2, 3}, {10, 3}, {2, 4}, {11, 1}, {11, 2}};
    for (size_t i = 0; i < sizeof counts / sizeof *counts; i++) {
        struct places memory = places_new((size_t)length_of(counts[i][0], counts[i][1]));
        int32_t input[12] = {0}, output[12];
        memset(memory.lent, 0, memory.length * sizeof(int32_t));
        memory.lent[0] = counts[i][0];
        memory.lent[1] = counts[i][1];
        places_mark(memory);
        IS_REFUSAL(oeq_block(memory.lent, memory.length, unity, (size_t)counts[i][0], input, 12, output, 12), 31);
        CHECK(places_same(memory), "%d bands, %d channels", counts[i][0], counts[i][1]);
        places_free(memory);
    }
}

void block_refusals(int rounds)
{
    for (int round = 0; round < rounds; round++)
        for (int bands = 2; bands <= 10; bands++)
            for (int set = 0; set < 1 << FAULTS; set++)
                if (!(set & SPLIT))
                    call_with(bands, 1 + (round + set + bands) % 2, 0, set);
    IS_REFUSAL(oeq_block(NULL, 0, NULL, 0, NULL, 0, NULL, 0), 31);
    block_lengths();
    counts_with_their_length();
}

void crossover_refusals(int rounds)
{
    for (int round = 0; round < rounds; round++)
        for (int bands = 2; bands <= 10; bands++)
            for (int set = 0; set < 1 << FAULTS; set++)
                call_with(bands, 1 + (round + set + bands) % 2, 1, set);
}

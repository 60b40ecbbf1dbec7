/* The header reader against a walk written from the rules, on built, damaged and random fronts; and the writer. */
#include <string.h>
#include "check.h"
#include "octave_eq.h"
#include "parts.h"

enum { ROOM = 6000, FOUND = 5 };

/* One byte follows contents of odd length. */
static uint64_t padded(uint32_t size)
{
    return (uint64_t)size + (size & 1);
}

static uint32_t number_at(const uint8_t *s, size_t bytes)
{
    uint32_t n = 0;
    for (size_t i = bytes; i-- > 0;)
        n = n << 8 | s[i];
    return n;
}

/* 16 or 24 bits with tag 1 in 16 bytes; 32 bits with tag 3 in 16 bytes, or in 18 of which the last two are 0. */
static int right_format(const uint8_t *fmt, uint32_t size)
{
    uint32_t tag = number_at(fmt, 2), bits = number_at(fmt + 14, 2);
    if (tag == 1)
        return size == 16 && (bits == 16 || bits == 24);
    return tag == 3 && bits == 32 && (size == 16 || number_at(fmt + 16, 2) == 0);
}

static int right_values(const uint8_t *fmt, uint32_t size)
{
    uint32_t channels = number_at(fmt + 2, 2), rate = number_at(fmt + 4, 4), block = number_at(fmt + 12, 2), bits = number_at(fmt + 14, 2);
    return right_format(fmt, size) && (channels == 1 || channels == 2) && (rate == 44100 || rate == 48000)
        && block == channels * bits / 8 && number_at(fmt + 8, 4) == rate * block;
}

/* Fronts refused with a number; fronts accepted, by channels and bytes of a sample, those with a `fmt ` of 18, and those with a chunk of odd
   length before `data`. */
static long refused[32], accepted[3][5], longer, passed;

/* The refusal number, or 0 and what was found. */
static int model_read(const uint8_t *front, size_t length, uint32_t found[FOUND])
{
    uint64_t at = 12;
    uint32_t have_format = 0;
    int odd = 0;
    if (length > 4096)
        length = 4096;
    if (length < 12 || memcmp(front, "RIFF", 4) != 0 || memcmp(front + 8, "WAVE", 4) != 0)
        return 21;
    for (;;) {
        if (at + 8 > length)
            return 24;
        const uint8_t *chunk = front + at;
        uint32_t size = number_at(chunk + 4, 4);
        if (memcmp(chunk, "fmt ", 4) == 0) {
            if (size != 16 && size != 18)
                return 23;
            if (at + 8 + size > length)
                return 24;
            if (have_format || !right_values(chunk + 8, size))
                return 23;
            have_format = size;
            found[0] = number_at(chunk + 12, 4);
            found[1] = number_at(chunk + 22, 2);
            found[4] = number_at(chunk + 10, 2);
        } else if (memcmp(chunk, "data", 4) == 0) {
            if (!have_format)
                return 22;
            if (size % (found[4] * found[1] / 8) != 0)
                return 25;
            found[2] = size;
            found[3] = (uint32_t)at + 8;
            passed += odd;
            longer += have_format == 18;
            return 0;
        }
        odd |= size & 1;
        at += 8 + padded(size);
    }
}

static void compare(const uint8_t *front, size_t length)
{
    uint32_t expected[FOUND], found[FOUND + 2], before[FOUND + 2];
    for (int i = 0; i < FOUND + 2; i++)
        before[i] = found[i] = (uint32_t)random_bits();
    int number = model_read(front, length, expected);
    int64_t answer = oeq_wave_read(length ? front : NULL, length, found + 1);
    if (number == 0) {
        accepted[expected[4]][expected[1] / 8]++;
        CHECK(answer == FOUND, "answered %lld", (long long)answer);
        CHECK(memcmp(found + 1, expected, sizeof expected) == 0, "found %u %u %u %u %u", found[1], found[2], found[3], found[4], found[5]);
        CHECK(found[0] == before[0] && found[FOUND + 1] == before[FOUND + 1], "around the five places");
    } else {
        refused[number]++;
        IS_REFUSAL(answer, number);
        CHECK(memcmp(found, before, sizeof found) == 0, "refused %d, found changed", number);
    }
}

static size_t put_number(uint8_t *s, uint32_t n, size_t bytes)
{
    for (size_t i = 0; i < bytes; i++)
        s[i] = (uint8_t)(n >> 8 * i);
    return bytes;
}

/* A format; now and then with the other tag, with another length, or with something in the two bytes behind the bits. */
static size_t put_format(uint8_t *s)
{
    uint32_t rate = random_bits() & 1 ? 44100 : 48000, bits = 16 + 8 * random_below(3), tag = bits == 32 ? 3 : 1;
    uint32_t size = bits == 32 && random_bits() & 1 ? 18 : 16, behind = random_below(8) ? 0 : 1u << random_below(16);
    if (random_below(16) == 0)
        tag = 4 - tag;
    if (random_below(16) == 0)
        size = random_bits() & 1 ? 34 - size : 14 + random_below(8);
    uint32_t channels = random_below(32) ? 1 + random_below(2) : random_below(300), counted = random_below(32) ? channels : 3 - channels;
    memcpy(s, "fmt ", 4);
    put_number(s + 4, size, 4);
    put_number(s + 8, tag, 2);
    put_number(s + 10, channels, 2);
    put_number(s + 12, rate, 4);
    put_number(s + 16, rate * (random_below(32) ? counted : 3 - counted) * (bits / 8), 4);
    put_number(s + 20, counted * (bits / 8), 2);
    put_number(s + 22, bits, 2);
    put_number(s + 24, behind, 2);
    return 8 + (size_t)padded(size);
}

static size_t put_data(uint8_t *s)
{
    uint32_t size = (uint32_t)random_bits();
    if (random_below(4))
        size -= size % 24;
    if (random_below(4) == 0)
        size = random_below(25);
    memcpy(s, "data", 4);
    return 4 + put_number(s + 4, size, 4);
}

/* A chunk that is passed over, with its pad; now and then one that leads to the end of the front, or far beyond, or that lacks its pad. */
static size_t put_other(uint8_t *s, size_t at)
{
    static const char names[6][5] = {"LIST", "fact", "bext", "FMT ", "data", "fmt "};
    uint32_t size = random_below(60);
    memcpy(s, names[random_below(16) ? random_below(4) : random_below(6)], 4);
    switch (random_below(24)) {
    case 0: size = (uint32_t)(4096 - at - 22 + random_below(18)); break;
    case 1: size = 0xffffffffu - random_below(40); break;
    case 2: size = 0x7ffffff0u + random_below(40); break;
    }
    put_number(s + 4, size, 4);
    if (size >= 4096)
        return 8;
    return 8 + (random_below(16) ? (size_t)padded(size) : size);
}

static size_t build(uint8_t *front)
{
    size_t at = 12;
    for (size_t i = 0; i < ROOM; i++)
        front[i] = (uint8_t)random_bits();
    memcpy(front, "RIFF", 4);
    memcpy(front + 8, "WAVE", 4);
    for (uint32_t k = random_below(4); k > 0 && at < 4000; k--)
        at += put_other(front + at, at);
    if (random_below(12) && at < 5900)
        at += put_format(front + at);
    for (uint32_t k = random_below(4); k > 0 && at < 4000; k--)
        at += put_other(front + at, at);
    if (random_below(12) == 0 && at < 5900)
        at += put_format(front + at);
    if (random_below(12) && at < 5900)
        at += put_data(front + at);
    return at < ROOM ? at : ROOM;
}

static void damage(uint8_t *front, size_t length)
{
    for (uint32_t k = random_below(3); k > 0 && length > 0; k--)
        front[random_below((uint32_t)length)] ^= (uint8_t)(1u << random_below(8));
}

/* The refusal number of the writer, or 0. */
static int model_write(size_t length, uint32_t rate, uint32_t size, int32_t channels)
{
    if (length != 44)
        return 27;
    if (rate != 44100 && rate != 48000)
        return 28;
    if (channels != 1 && channels != 2)
        return 9;
    return size % (3 * (uint32_t)channels) != 0 || padded(size) + 36 > UINT32_MAX ? 26 : 0;
}

/* The writer with a buffer of so many bytes, against the model; an accepted header is read back. */
static void write_one(size_t length, uint32_t rate, uint32_t size, int32_t channels)
{
    uint8_t buffer[48], expected[48];
    uint32_t found[FOUND];
    memset(buffer, 0xaa, sizeof buffer);
    memset(expected, 0xaa, sizeof expected);
    int number = model_write(length, rate, size, channels);
    int64_t answer = oeq_wave_write(length ? buffer : NULL, length, rate, size, channels);
    if (number != 0) {
        IS_REFUSAL(answer, number);
    } else {
        uint32_t frame = 3 * (uint32_t)channels;
        CHECK(answer == 44, "answered %lld", (long long)answer);
        memcpy(expected, "RIFF\0\0\0\0WAVEfmt \20\0\0\0\1\0", 22);
        put_number(expected + 4, (uint32_t)padded(size) + 36, 4);
        put_number(expected + 22, (uint32_t)channels, 2);
        put_number(expected + 24, rate, 4);
        put_number(expected + 28, rate * frame, 4);
        put_number(expected + 32, frame, 2);
        memcpy(expected + 34, "\30\0data", 6);
        put_number(expected + 40, size, 4);
        CHECK(oeq_wave_read(buffer, 44, found) == FOUND && found[0] == rate && found[1] == 24 && found[2] == size
                  && found[3] == 44 && found[4] == (uint32_t)channels, "the header read back");
    }
    CHECK(memcmp(buffer, expected, sizeof buffer) == 0, "rate %u, length %u, %d channels", rate, size, (int)channels);
}

static const int32_t outside_channels[] = {INT32_MIN, -2, -1, 0, 3, 4, 257, 258, INT32_MAX};

/* Any faults at once, each in several ways, and the exact limits of the length. */
static void writer_faults(void)
{
    static const size_t buffers[] = {44, 0, 43, 45};
    static const uint32_t rates[] = {48000, 44100, 0, 44101, 96000}, sizes[] = {6, 3, 0, 1, 5, 7, 9, UINT32_MAX, UINT32_MAX - 3};
    for (size_t a = 0; a < 4; a++)
        for (size_t b = 0; b < 5; b++)
            for (size_t c = 0; c < 9; c++) {
                write_one(buffers[a], rates[b], sizes[c], 1);
                write_one(buffers[a], rates[b], sizes[c], 2);
                for (size_t d = 0; d < 9; d++)
                    write_one(buffers[a], rates[b], sizes[c], outside_channels[d]);
            }
    for (uint32_t size = UINT32_MAX; size > UINT32_MAX - 100; size--)
        for (int32_t channels = 1; channels <= 2; channels++)
            write_one(44, 48000, size, channels);
    uint8_t buffer[44];
    CHECK(oeq_wave_write(buffer, 44, 48000, 4294967256u, 1) == 44 && oeq_wave_write(buffer, 44, 48000, 4294967256u, 2) == 44, "the largest");
    IS_REFUSAL(oeq_wave_write(buffer, 44, 48000, 4294967259u, 1), 26);
    IS_REFUSAL(oeq_wave_write(buffer, 44, 48000, 4294967262u, 2), 26);
}

static void writer(int rounds)
{
    static const uint32_t rates[6] = {44100, 48000, 0, 44101, 96000, 0xffffffffu};
    writer_faults();
    for (int round = 0; round < rounds; round++) {
        uint32_t rate = rates[random_below(random_bits() & 1 ? 2 : 6)], size = (uint32_t)random_bits();
        if (random_bits() & 1)
            size -= size % 6;
        if (random_below(8) == 0)
            size = UINT32_MAX - random_below(80);
        write_one(random_below(4) ? 44 : random_below(49), rate, size,
                  random_below(4) ? 1 + (int32_t)random_below(2) : outside_channels[random_below(9)]);
    }
}

void headers(int rounds)
{
    static uint8_t front[ROOM];
    for (int round = 0; round < rounds; round++) {
        size_t length = build(front);
        compare(front, ROOM);
        compare(front, length);
        damage(front, length);
        compare(front, length);
        compare(front, random_below(ROOM + 1));
        compare(front, random_below(64));
    }
    for (int number = 21; number <= 25; number++)
        CHECK(refused[number] > 0, "no front was refused %d", number);
    CHECK(passed > 0, "no chunk of odd length was passed over");
    CHECK(longer > 0, "no `fmt ` of 18 was accepted");
    for (int channels = 1; channels <= 2; channels++)
        for (int bytes = 2; bytes <= 4; bytes++)
            CHECK(accepted[channels][bytes] > 0, "no front of %d channels, %d bytes a sample was accepted", channels, bytes);
    writer(rounds);
}

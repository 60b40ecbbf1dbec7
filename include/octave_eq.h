/*
 * octave_eq.h: the proved octave equaliser and its crossover, its gain commands, the WAVE header and the sample codec, of
 * bytes and of floats, for C.
 *
 * Link with libcapi.a (x86-64 Linux), which needs memset and memcpy and nothing else. No call allocates, keeps a state of
 * its own or calls back, and each comes back, whatever it is handed. Calls on different places may run at the same time.
 * oeq_block and oeq_crossover take about 2.4 KiB of stack at two bands and 4.7 KiB at ten, measured as the older kit built them;
 * the other calls take less.
 *
 * NUMBERS
 *   sample   int32_t, -8,388,608 to 8,388,607: 24 bits, full scale at both ends.
 *   float    a sample over 8,388,608, IEEE 754's binary32: 1.0 is one past the largest sample, -1.0 the smallest.
 *   gain     int32_t, 0 to 16,384; 4,096 is unity, so 16,384 is a factor of 4.
 *   bands    2 to 10. Gains and bands are counted from the lowest: gains[0] is the lowest band's.
 *   channels 1, or 2: left and right. A frame is one sample of each, left first; both sides have the same gains.
 *   block    0 to 4,096 frames, interleaved: sample i of the left stands at place channels * i, the right's at the next.
 *
 * ANSWERS
 *   Every call returns an int64_t. An accepted call returns its answer, which is never below -8,388,608. A refusal is
 *   INT64_MIN + number + 256 * place; the helpers below take it apart. The place is 0 but for refusals 8 and 41.
 *   The two never meet.
 *   A refused call has changed nothing that was lent to it. Where several faults are there, the number is that of the
 *   first in the order in which a call lists its refusals.
 *
 * POINTERS
 *   A pointer with a length lends so many elements, aligned for their type, for the time of the call; with length 0 it
 *   may be NULL. What a call may write must not overlap anything else that is lent to the same call: output is not input.
 */
#ifndef OCTAVE_EQ_H
#define OCTAVE_EQ_H

#include <stddef.h>
#include <stdint.h>

#ifdef __cplusplus
extern "C" {
#endif

enum {
    OEQ_BANDS_LEAST = 2,
    OEQ_BANDS_MOST = 10,
    OEQ_CHANNELS_MOST = 2,
    OEQ_BLOCK_MOST = 4096,  /* frames */
    OEQ_SAMPLE_LEAST = -8388608,
    OEQ_SAMPLE_MOST = 8388607,
    OEQ_GAIN_UNITY = 4096,
    OEQ_GAIN_MOST = 16384,
    OEQ_WAVE_FRONT = 4096,  /* the reader looks at no more than so many bytes */
    OEQ_WAVE_HEADER = 44    /* what the writer makes */
};

/* The places of a line memory, for an array's length: for eight bands 8,067 and, of two channels, 16,131; for ten 41,475
   and 82,947. */
#define OEQ_MEMORY_LENGTH(bands, channels) (3 + (channels) * ((bands) - 1) * (9 << ((bands) - 1)))

/* Refusal numbers. */
enum {
    OEQ_BAND_COUNT = 1,      /* band count not 2..10 */
    OEQ_MEMORY_SIZE = 2,     /* memory length not that of these counts */
    OEQ_GAIN_COUNT = 4,      /* number of gains is not the band count */
    OEQ_GAIN = 5,            /* a gain not 0..16,384 */
    OEQ_OUTPUT_LENGTH = 6,   /* an output's length differs from the input's, or it is not whole frames */
    OEQ_TOO_LONG = 7,        /* over 4,096 frames */
    OEQ_SAMPLE = 8,          /* a sample out of range, on either side; its place is the first one's index in the input */
    OEQ_CHANNEL_COUNT = 9,   /* channel count not 1 or 2 */
    OEQ_SPLIT = 10,          /* split not 1 to bands - 1: a feed would have no band */
    OEQ_DECIBELS = 11,       /* no whole number of half decibels from -12 to 12 dB, or no number */
    OEQ_FACTOR = 12,         /* factor not 0 to 4, or no number */
    OEQ_BYTES_LENGTH = 18,   /* not two or three bytes; a buffer not three bytes */
    OEQ_NOT_24_BITS = 19,    /* number out of the sample range */
    OEQ_NOT_WAVE = 21,       /* front under 12 bytes, or RIFF or WAVE not there */
    OEQ_NO_FORMAT = 22,      /* `data` before any `fmt ` */
    OEQ_WRONG_FORMAT = 23,   /* `fmt ` of another length, with a wrong value, or a second one */
    OEQ_CUT_OFF = 24,        /* a chunk header, or the contents of `fmt `, not wholly in the front */
    OEQ_PART_SAMPLE = 25,    /* `data` length is not a multiple of the block size: not whole frames */
    OEQ_WRITE_LENGTH = 26,   /* length not a multiple of 3 * channels, or above 4,294,967,256 */
    OEQ_WRITE_BUFFER = 27,   /* buffer not 44 bytes */
    OEQ_WRITE_RATE = 28,     /* rate neither 44,100 nor 48,000 */
    OEQ_KEPT_COUNTS = 31,    /* memory too short to hold its counts, or one of them not allowed */
    OEQ_KEPT_LENGTH = 32,    /* memory length not that of the counts it holds */
    OEQ_KEPT_POSITION = 33,  /* the memory's position is outside its line */
    OEQ_NOT_NUMBER = 41      /* a float is NaN or infinite; of a block's, its place is the first one's index */
};

/* Whether an answer is a refusal. */
static inline int oeq_is_refusal(int64_t answer)
{
    return answer < INT64_MIN / 2;
}

/* The number of a refusal; 0 for an accepted answer. */
static inline int oeq_refusal_number(int64_t answer)
{
    return oeq_is_refusal(answer) ? (int)((answer - INT64_MIN) % 256) : 0;
}

/* The place of a refusal; 0 for one that has none, and for an accepted answer. */
static inline int64_t oeq_refusal_place(int64_t answer)
{
    return oeq_is_refusal(answer) ? (answer - INT64_MIN) / 256 : 0;
}

/* ---- the equaliser ------------------------------------------------------------------------------------------------ */

/*
 * The places that a line memory has for these counts: 3 + channels * (bands - 1) * 9 * 2^(bands - 1).
 *
 *   bands      2 to 10
 *   channels   1 or 2
 *
 * Returns the length. Refuses: 1 band count not 2..10; 9 channel count not 1 or 2.
 */
int64_t oeq_memory_length(int32_t bands, int32_t channels);

/*
 * Fills a line memory for an empty history: silence before the first frame.
 *
 *   bands          2 to 10
 *   channels       1 or 2; the memory keeps it, and every block through it has frames of so many samples
 *   memory         what oeq_block and oeq_crossover work in, memory_length places; whatever it held is gone
 *   memory_length  oeq_memory_length(bands, channels)
 *
 * Returns the delay of the output in frames, 9 * (2^(bands - 1) - 1): 1,143 for eight bands, 4,599 for ten.
 * Refuses: 1 band count not 2..10; 9 channel count not 1 or 2; 2 memory length not that of these counts.
 */
int64_t oeq_prepare(int32_t bands, int32_t channels, int32_t *memory, size_t memory_length);

/*
 * Equalises a block: output[i] answers input[i]. Each side is what a memory of one channel makes of that side alone. How
 * a signal is cut into blocks does not matter, and an empty block changes no place.
 *
 *   memory   from oeq_prepare, then only changed by oeq_block and oeq_crossover. It holds the bands, the channels and the
 *            position, then the lines of the left, then those of the right. The line places may hold any numbers; it is
 *            accepted exactly when memory[0] is 2..10 and memory[1] is 1 or 2 (else 31), the length is that of these
 *            counts (32), and memory[2] is a place of a line, 0 to 9 * 2^(bands - 1) - 1 (33).
 *   gains    one for each band, 0 to 16,384, for every frame of this block; they may differ from call to call
 *   input    0 to 4,096 whole frames, each of memory[1] samples; input_length counts samples
 *   output   as long as input; not the same places
 *
 * Growth: a line value is at most 1.4024 times the largest of the line above it, and half a step: for ten bands below
 * 176,009,875 from prepared memory, far within 32 bits (in other memory it is limited to 32 bits). A line's sum, of six
 * products, has 64 bits, of which it fills 51 at most, and the gain sum of ten bands 50. Nothing is rounded but each line
 * value once, to the nearest with a tie away from zero, and the gain sum once; then the output is limited to the sample
 * range, and a loud sample never turns over. Scale nothing.
 *
 * Returns the number of frames written, input_length / channels.
 * Refuses: 31 memory too short to hold its counts, or a count not allowed; 32 memory length not theirs; 33 position
 * outside its line; 4 number of gains is not the band count; 5 a gain not 0..16,384; 6 output length differs from input,
 * or it is not whole frames; 7 over 4,096 frames; 8 a sample out of range, on either side: the block is refused for both,
 * and oeq_refusal_place tells the first such sample's index in input, 0 to 8,191. Of two channels index / 2 is its frame,
 * and index % 2 is 0 for the left.
 */
int64_t oeq_block(int32_t *memory, size_t memory_length, const int32_t *gains, size_t gains_length,
                  const int32_t *input, size_t input_length, int32_t *output, size_t output_length);

/*
 * Equalises a block into two feeds, in one pass through the same memory: bands 1 to split go to the bass feed, the others
 * to the horn feed. bass[i] and horn[i] answer input[i], both late by the same delay. Each feed is what oeq_block would
 * write with the gains of the other feed's bands read as 0: gained, summed, rounded once and limited once by itself, and
 * no gain of the other feed's bands moves it. With all gains at unity bass[i] + horn[i] is the late input, exactly,
 * wherever neither feed was limited. The memory is left as oeq_block would leave it: on one memory either may be called,
 * block by block.
 *
 *   memory   from oeq_prepare, then only changed by oeq_block and oeq_crossover; judged as in oeq_block
 *   gains    one for each band, 0 to 16,384, for every frame of this block; they may differ from call to call
 *   split    1 to bands - 1, how many bands the bass feed has; it may differ from call to call
 *   input    0 to 4,096 whole frames, each of memory[1] samples; input_length counts samples
 *   bass     as long as input; not the same places
 *   horn     as long as input; neither input's places nor bass's
 *
 * Growth as in oeq_block; but a feed may be louder than the whole, where the bands of the other would have taken
 * something away from it, and is then limited by itself.
 *
 * Returns the number of frames written to each feed, input_length / channels.
 * Refuses: 31 memory too short to hold its counts, or a count not allowed; 32 memory length not theirs; 33 position
 * outside its line; 4 number of gains is not the band count; 10 split not 1 to bands - 1; 5 a gain not 0..16,384; 6
 * length of bass or of horn differs from input, or it is not whole frames; 7 over 4,096 frames; 8 a sample out of range,
 * with its place, as in oeq_block.
 */
int64_t oeq_crossover(int32_t *memory, size_t memory_length, const int32_t *gains, size_t gains_length, int32_t split,
                      const int32_t *input, size_t input_length, int32_t *bass, size_t bass_length, int32_t *horn,
                      size_t horn_length);

/* ---- gain commands ------------------------------------------------------------------------------------------------ */

/*
 * The gain of a number of decibels: -12 to 12 in steps of 0.5, -0.0 as 0; nearest to 4,096 * 10^(decibels / 20).
 *
 * Returns the gain, 1,029 to 16,306. Refuses: 11 any other number, NaN and infinities.
 */
int64_t oeq_gain_decibels(float decibels);

/*
 * The gain of a factor: 0 to 4, both included, -0.0 as 0; 4,096 times the factor, to the nearest, a tie upward.
 *
 * Returns the gain, 0 to 16,384. Refuses: 12 any other number, NaN and infinities.
 */
int64_t oeq_gain_factor(float factor);

/* The gain of a band that is off. Returns 0. Refuses nothing. */
int64_t oeq_gain_off(void);

/* ---- WAVE --------------------------------------------------------------------------------------------------------- */

/*
 * Reads the header at the front of a PCM file, or one of floats, of one or two channels.
 *
 *   front   the file's first 4,096 bytes, or the whole file if it is shorter; of more, the first 4,096 are judged
 *   found   five places, never NULL; written by an accepted call only:
 *           found[0] rate, 44,100 or 48,000 Hz; found[1] bits of a sample, 16, 24 or 32, which is float;
 *           found[2] length of the samples in bytes; found[3] where they start, in bytes from the front's first;
 *           found[4] channels, 1 or 2
 *
 * Other chunks are passed over, each odd one with the pad byte behind it.
 *
 * Returns 5, the number of places written.
 * Refuses: 21 front under 12 bytes or names wrong; then, as the chunks come: 22 `data` before any `fmt `; 23 `fmt ` of
 * another length than 16 or 18, with a wrong value, or a second one (right are 16 bytes with tag 1 and 16 or 24 bits, or
 * with tag 3 and 32 bits 16 bytes, or 18 of which the last two are 0; the channels and rates above, a block size of
 * channels * bits / 8, a byte rate of rate * block size); 24 a chunk header or the contents of `fmt ` not wholly in the
 * front; 25 `data` length not a multiple of the block size.
 */
int64_t oeq_wave_read(const uint8_t *front, size_t front_length, uint32_t *found);

/*
 * Writes the header of a 24-bit file of one or two channels.
 *
 *   buffer     44 bytes
 *   rate       44,100 or 48,000 Hz
 *   length     of the samples in bytes, a multiple of 3 * channels, at most 4,294,967,256
 *   channels   1 or 2
 *
 * The samples follow. An odd length wants one zero byte behind the last sample: the header's RIFF size counts this pad,
 * its `data` length does not.
 *
 * Returns 44, the number of bytes written.
 * Refuses: 27 buffer not 44 bytes; 28 rate neither of the two; 9 channel count not 1 or 2; 26 length not a multiple of
 * 3 * channels or too large.
 */
int64_t oeq_wave_write(uint8_t *buffer, size_t buffer_length, uint32_t rate, uint32_t length, int32_t channels);

/*
 * The sample in three bytes, or in two, taken times 256: two's complement, the lowest byte first.
 *
 * Returns the sample, which may be negative: ask oeq_is_refusal, not its sign. Refuses: 18 not two or three bytes.
 */
int64_t oeq_sample_from_bytes(const uint8_t *bytes, size_t bytes_length);

/*
 * Writes a sample's three bytes: two's complement, the lowest byte first.
 *
 *   buffer   3 bytes
 *
 * Returns 3, the number of bytes written. Refuses: 18 buffer not three bytes; 19 number out of range.
 */
int64_t oeq_sample_to_bytes(int32_t sample, uint8_t *buffer, size_t buffer_length);

/* ---- floats ------------------------------------------------------------------------------------------------------- */

/*
 * The sample of a float: 8,388,608 times the float, to the nearest, a tie away from zero, then limited to the sample
 * range: 1.0 and above gives 8,388,607, -1.0 and below -8,388,608. -0.0 gives 0.
 *
 * Returns the sample, which may be negative: ask oeq_is_refusal, not its sign. Refuses: 41 NaN and infinities.
 */
int64_t oeq_sample_from_float(float value);

/*
 * The float of a sample: the sample over 8,388,608. Nothing is rounded, 0 is +0.0, and oeq_sample_from_float gives the
 * sample back.
 *
 *   value   one place, never NULL; written by an accepted call only
 *
 * Returns 1, the number of places written. Refuses: 19 number out of range.
 */
int64_t oeq_sample_to_float(int32_t sample, float *value);

/*
 * The samples of floats: samples[i] is what oeq_sample_from_float gives of values[i].
 *
 *   values    as many as there are, fewer than 2^54
 *   samples   as long as values; not the same places
 *
 * Returns the number of samples.
 * Refuses: 6 samples not as long as values, or 2^54 values or more; 41 a NaN or an infinity, and oeq_refusal_place tells
 * the first one's index in values.
 */
int64_t oeq_samples_from_floats(const float *values, size_t values_length, int32_t *samples, size_t samples_length);

#ifdef __cplusplus
}
#endif

#endif

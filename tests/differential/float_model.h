/* The sample of a float in double precision, where a float times 8,388,608 is exact; and floats by their bits. */
#ifndef FLOAT_MODEL_H
#define FLOAT_MODEL_H

#include <math.h>
#include <stdint.h>
#include <string.h>

static inline float float_of(uint32_t bits)
{
    float x;
    memcpy(&x, &bits, sizeof x);
    return x;
}

static inline uint32_t bits_of(float x)
{
    uint32_t bits;
    memcpy(&bits, &x, sizeof bits);
    return bits;
}

/* NaN and the infinities have an exponent of 255. */
static inline int no_number(uint32_t bits)
{
    return (bits >> 23 & 255) == 255;
}

/* To the nearest, a tie away from zero, limited; of a float that is a number. */
static inline int32_t model_sample(uint32_t bits)
{
    double size = floor(fabs((double)float_of(bits) * 8388608.0) + 0.5);
    if (bits >> 31)
        return size > 8388608.0 ? -8388608 : -(int32_t)size;
    return size > 8388607.0 ? 8388607 : (int32_t)size;
}

#endif

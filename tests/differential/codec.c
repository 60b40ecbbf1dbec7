/* Every sample through the codec, and every wrong length. */
#include <string.h>
#include "check.h"
#include "octave_eq.h"
#include "parts.h"

void samples(void)
{
    uint8_t bytes[8];
    for (int32_t z = OEQ_SAMPLE_LEAST; z <= OEQ_SAMPLE_MOST; z++) {
        uint32_t code = (uint32_t)z;
        memset(bytes, 0xaa, sizeof bytes);
        int64_t put = oeq_sample_to_bytes(z, bytes, 3);
        CHECK(put == 3 && bytes[0] == (code & 255) && bytes[1] == (code >> 8 & 255) && bytes[2] == (code >> 16 & 255)
                  && bytes[3] == 0xaa, "sample %d", (int)z);
        CHECK(oeq_sample_from_bytes(bytes, 3) == z, "sample %d", (int)z);
    }
    for (int code = 0; code < 65536; code++) {
        bytes[0] = (uint8_t)code;
        bytes[1] = (uint8_t)(code >> 8);
        int value = code < 32768 ? code : code - 65536;
        CHECK(oeq_sample_from_bytes(bytes, 2) == value * 256, "16 bits: %d", value);
    }
    static const int32_t outside[] = {-8388609, 8388608, -16777216, 16777215, 1 << 24, INT32_MIN, INT32_MAX};
    for (size_t length = 0; length <= sizeof bytes; length++) {
        memset(bytes, 0x55, sizeof bytes);
        if (length != 2 && length != 3)
            IS_REFUSAL(oeq_sample_from_bytes(length ? bytes : NULL, length), 18);
        for (size_t i = 0; i < sizeof outside / sizeof *outside; i++)
            IS_REFUSAL(oeq_sample_to_bytes(outside[i], length ? bytes : NULL, length), length == 3 ? 19 : 18);
        if (length != 3)
            IS_REFUSAL(oeq_sample_to_bytes(7, length ? bytes : NULL, length), 18);
        for (size_t i = 0; i < sizeof bytes; i++)
            CHECK(bytes[i] == 0x55, "a refusal wrote byte %zu", i);
    }
}

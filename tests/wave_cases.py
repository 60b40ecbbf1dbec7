#!/usr/bin/env python3
"""Writes the edge cases of the WAVE reader: small files, each a step to one side of what the rules accept.

    python3 tests/wave_cases.py tests/files
"""
import os
import sys

from model.wave import WHOLE, chunk, float_fmt, floats, fmt, riff

FMT = fmt()
SIDES = fmt(channels=2)
TWO = WHOLE[44:]  # the samples 1 and -1, or a frame of both
FLOAT = {16: float_fmt(length=16), 18: float_fmt()}
FLOAT_SIDES = {16: float_fmt(channels=2, length=16), 18: float_fmt(channels=2)}
# 0.5, -1.0, 2^-24, its negative, 1.0, -0.25 and a tie beside it, the largest float
EIGHT = floats([0x3F000000, 0xBF800000, 0x33800000, 0xB3800000, 0x3F800000, 0xBE800000, 0xBE800002, 0x7F7FFFFF])
# a NaN of either kind and sign, the infinities
BAD = floats([0x7FC00000, 0xFFC00001, 0x7F800001, 0xFFBFFFFF, 0x7F800000, 0xFF800000])
FLOATS = chunk(b"data", EIGHT)
FACT = chunk(b"fact", b"\x08\0\0\0")


def note(length):
    """A chunk that is passed over, with its pad."""
    return chunk(b"note", b"\x55" * length)


def bare(length):
    """The same, with its pad forgotten."""
    return chunk(b"note", b"\x55" * length, size=length)


DATA = chunk(b"data", TWO)


CASES = {
    "whole.wav": WHOLE,
    "riff-size-any.wav": riff(FMT, chunk(b"data", TWO), size=0xFFFFFFFF),
    "data-size-past-the-end.wav": riff(FMT, chunk(b"data", TWO, size=4294967295)),
    "data-size-0.wav": riff(FMT, chunk(b"data", b"")),
    "bits-16.wav": riff(fmt(rate=44100, bits=16), chunk(b"data", b"\x00\x80\xff\x7f\xff\xff")),
    "two-channels.wav": riff(SIDES, chunk(b"data", TWO)),
    "two-channels-bits-16.wav": riff(fmt(rate=44100, bits=16, channels=2), chunk(b"data", b"\x00\x80\xff\x7f\xff\xff\x01\x00")),
    "two-channels-data-size-0.wav": riff(SIDES, chunk(b"data", b"")),
    "two-channels-largest-written.wav": riff(SIDES, chunk(b"data", TWO, size=4294967256)),
    "two-channels-too-large-to-write.wav": riff(SIDES, chunk(b"data", TWO, size=4294967262)),
    "one-channel-largest-written.wav": riff(FMT, chunk(b"data", TWO, size=4294967256)),
    "one-channel-too-large-to-write.wav": riff(FMT, chunk(b"data", TWO, size=4294967259)),
    "note-before.wav": riff(chunk(b"note", b"abc"), FMT, chunk(b"note", b""), DATA),
    "header-ends-at-4096.wav": riff(FMT, note(4044), DATA),
    # chunks of odd length, padded
    "note-of-1-before-fmt.wav": riff(note(1), FMT, DATA),
    "note-of-1-before-data.wav": riff(FMT, note(1), DATA),
    "note-of-3-before-fmt.wav": riff(note(3), FMT, DATA),
    "note-of-3-before-data.wav": riff(FMT, note(3), DATA),
    "note-of-3-twice.wav": riff(note(3), FMT, note(3), DATA),
    "note-of-4043-before-fmt.wav": riff(note(4043), FMT, DATA),
    "note-of-4043-before-data.wav": riff(FMT, note(4043), DATA),
    "note-with-a-pad-of-255.wav": riff(FMT, bare(3) + b"\xff", DATA),
    "data-odd.wav": riff(FMT, chunk(b"data", TWO[:3])),
    "data-odd-not-padded.wav": riff(FMT, chunk(b"data", TWO[:3], size=3)),
    "data-odd-then-note.wav": riff(FMT, chunk(b"data", TWO[:3]), note(3)),
    # floats
    "bits-32.wav": riff(FLOAT[16], FLOATS),
    "bits-32-fmt-of-18.wav": riff(FLOAT[18], FLOATS),
    "bits-32-rate-44100.wav": riff(float_fmt(44100), FLOATS),
    "bits-32-fact-before-data.wav": riff(FLOAT[18], FACT, FLOATS),
    "bits-32-data-size-0.wav": riff(FLOAT[18], chunk(b"data", b"")),
    "bits-32-no-numbers.wav": riff(FLOAT[18], FACT, chunk(b"data", BAD)),
    "bits-32-no-number-behind.wav": riff(FLOAT[16], chunk(b"data", EIGHT + BAD)),
    "bits-32-no-number-past-the-data.wav": riff(FLOAT[18], FLOATS, chunk(b"note", BAD)),
    "bits-32-largest.wav": riff(FLOAT[18], chunk(b"data", EIGHT, size=4294967292)),
    "bits-32-header-ends-at-4096.wav": riff(FLOAT[18], note(4042), FLOATS),
    "bits-32-note-of-3-before-fmt.wav": riff(note(3), FLOAT[18], FLOATS),
    "bits-32-note-of-3-before-data.wav": riff(FLOAT[18], note(3), FLOATS),
    "two-channels-bits-32.wav": riff(FLOAT_SIDES[16], FLOATS),
    "two-channels-bits-32-fmt-of-18.wav": riff(FLOAT_SIDES[18], FLOATS),
    "two-channels-bits-32-fact-before-data.wav": riff(float_fmt(44100, channels=2), FACT, FLOATS),
    "two-channels-bits-32-no-number-on-the-right.wav": riff(FLOAT_SIDES[18], chunk(b"data", EIGHT[:4] + BAD[:4])),
    "two-channels-bits-32-largest.wav": riff(FLOAT_SIDES[16], chunk(b"data", EIGHT, size=4294967288)),
    # 21
    "21-empty.wav": b"",
    "21-eleven-bytes.wav": WHOLE[:11],
    "21-riff.wav": riff(FMT, chunk(b"data", TWO), first=b"RIFX"),
    "21-wave.wav": riff(FMT, chunk(b"data", TWO), form=b"WAVX"),
    # 22
    "22-data-first.wav": riff(chunk(b"data", TWO), FMT),
    "22-before-25.wav": riff(chunk(b"data", TWO, size=5)),
    "22-floats-first.wav": riff(FLOATS, FLOAT[18]),
    # 23
    "23-fmt-of-18.wav": riff(chunk(b"fmt ", FMT[8:] + b"\0\0"), chunk(b"data", TWO)),
    "23-before-24.wav": riff(chunk(b"fmt ", b"", size=17)),
    "23-second-fmt.wav": riff(FMT, FMT, chunk(b"data", TWO)),
    "23-tag.wav": riff(fmt(tag=3), chunk(b"data", TWO)),
    "23-channels.wav": riff(fmt(channels=3), chunk(b"data", TWO + TWO[:3])),
    "23-channels-0.wav": riff(fmt(channels=0), chunk(b"data", b"")),
    "23-channels-high-byte.wav": riff(fmt(channels=2 + 256, block=6, byte_rate=288000), chunk(b"data", TWO)),
    "23-rate.wav": riff(fmt(rate=44101), chunk(b"data", TWO)),
    "23-rate-high-byte.wav": riff(fmt(rate=48000 + 2**24, byte_rate=144000), chunk(b"data", TWO)),
    "23-byte-rate.wav": riff(fmt(byte_rate=144001), chunk(b"data", TWO)),
    "23-byte-rate-of-one-side.wav": riff(fmt(channels=2, byte_rate=144000), chunk(b"data", TWO)),
    "23-block.wav": riff(fmt(block=4, byte_rate=192000), chunk(b"data", TWO)),
    "23-block-of-one-side.wav": riff(fmt(channels=2, block=3), chunk(b"data", TWO)),
    "23-block-of-two-sides.wav": riff(fmt(block=6), chunk(b"data", TWO)),
    "23-bits.wav": riff(fmt(bits=32), chunk(b"data", TWO)),
    # 23, floats: the length of `fmt `, right values or none behind it
    "23-bits-16-fmt-of-18.wav": riff(fmt(bits=16, more=bytes(2)), chunk(b"data", TWO)),
    "23-bits-32-fmt-of-0.wav": riff(chunk(b"fmt ", b""), FLOATS),
    "23-bits-32-fmt-of-14.wav": riff(chunk(b"fmt ", FLOAT[16][8:22]), FLOATS),
    "23-bits-32-fmt-of-17.wav": riff(float_fmt(length=17), FLOATS),
    "23-bits-32-fmt-of-19.wav": riff(float_fmt(length=19), FLOATS),
    "23-bits-32-fmt-of-20.wav": riff(float_fmt(length=20), FLOATS),
    "23-bits-32-fmt-of-40.wav": riff(float_fmt(more=b"\x16\0" + bytes(22)), FLOATS),
    "23-bits-32-fmt-of-18-and-2-to-24.wav": riff(float_fmt(size=18 + 2**24), FLOATS),
    "23-before-24-fmt-of-17-cut.wav": riff(float_fmt(length=16, size=17)),
    "23-before-24-fmt-of-20-cut.wav": riff(float_fmt(size=20)),
    "23-before-24-fmt-of-40-cut.wav": riff(float_fmt(size=40)),
    # 23, floats: values
    "23-bits-32-last-byte.wav": riff(float_fmt(more=b"\0\1"), FLOATS),
    "23-bits-32-last-but-one-byte.wav": riff(float_fmt(more=b"\1\0"), FLOATS),
    "23-bits-32-tag-1.wav": riff(fmt(bits=32), FLOATS),
    "23-bits-32-tag-1-fmt-of-18.wav": riff(float_fmt(tag=1), FLOATS),
    "23-bits-32-tag-2.wav": riff(float_fmt(tag=2), FLOATS),
    "23-bits-32-tag-65534.wav": riff(float_fmt(tag=65534), FLOATS),
    "23-bits-32-tag-high-byte.wav": riff(float_fmt(tag=3 + 256, length=16), FLOATS),
    "23-tag-3-bits-8.wav": riff(float_fmt(bits=8), FLOATS),
    "23-tag-3-bits-16.wav": riff(float_fmt(bits=16, length=16), FLOATS),
    "23-tag-3-bits-16-fmt-of-18.wav": riff(float_fmt(bits=16), FLOATS),
    "23-tag-3-bits-24-fmt-of-18.wav": riff(float_fmt(bits=24), chunk(b"data", TWO)),
    "23-tag-3-bits-64.wav": riff(float_fmt(bits=64, length=16), FLOATS),
    "23-tag-3-bits-64-fmt-of-18.wav": riff(float_fmt(bits=64), FLOATS),
    "23-bits-32-bits-high-byte.wav": riff(float_fmt(bits=32 + 256, block=4, byte_rate=192000), FLOATS),
    "23-bits-32-block-of-3.wav": riff(float_fmt(block=3, byte_rate=192000), FLOATS),
    "23-bits-32-byte-rate-of-3.wav": riff(float_fmt(byte_rate=144000, length=16), FLOATS),
    "23-bits-32-block-and-byte-rate-of-3.wav": riff(float_fmt(block=3), FLOATS),
    "23-bits-32-block-of-two-sides.wav": riff(float_fmt(block=8), FLOATS),
    "23-two-channels-bits-32-block-of-one-side.wav": riff(float_fmt(channels=2, block=4), FLOATS),
    "23-two-channels-bits-32-byte-rate-of-one-side.wav": riff(float_fmt(channels=2, byte_rate=192000), FLOATS),
    "23-bits-32-channels.wav": riff(float_fmt(channels=3), FLOATS),
    "23-bits-32-channels-0.wav": riff(float_fmt(channels=0), FLOATS),
    "23-bits-32-rate.wav": riff(float_fmt(96000), FLOATS),
    "23-bits-32-second-fmt.wav": riff(FLOAT[18], FLOAT[18], FLOATS),
    "23-bits-32-second-fmt-of-16.wav": riff(FLOAT[18], FLOAT[16], FLOATS),
    "23-second-fmt-of-floats.wav": riff(FMT, FLOAT[18], FLOATS),
    # 23, floats: a wrong value is still in the front
    "23-bits-32-fmt-ends-at-4096.wav": riff(note(4050), float_fmt(more=b"\0\1"), FLOATS),
    "23-bits-16-fmt-of-18-ends-at-the-end.wav": riff(fmt(bits=16, more=bytes(2))),
    # 24
    "24-twelve-bytes.wav": WHOLE[:12],
    "24-chunk-header.wav": WHOLE[:19],
    "24-fmt-contents.wav": WHOLE[:35],
    "24-second-fmt-cut.wav": riff(FMT, chunk(b"fmt ", b"", size=16)),
    "24-no-data.wav": WHOLE[:36],
    "24-data-header.wav": WHOLE[:43],
    "24-chunk-past-32-bits.wav": riff(FMT, chunk(b"note", TWO, size=4294967295), chunk(b"data", TWO)),
    "24-chunk-of-2-to-31.wav": riff(FMT, chunk(b"note", TWO, size=2**31), chunk(b"data", TWO)),
    "24-header-ends-at-4098.wav": riff(FMT, note(4046), DATA),
    # 24, chunks of odd length: the pad past the front, or forgotten
    "24-note-of-4045-before-fmt.wav": riff(note(4045), FMT, DATA),
    "24-note-of-4045-before-data.wav": riff(FMT, note(4045), DATA),
    "24-note-of-4083-before-fmt.wav": riff(note(4083), FMT, DATA),
    "24-note-of-4083-before-data.wav": riff(FMT, note(4083), DATA),
    "24-note-of-4084-before-fmt.wav": riff(note(4084), FMT, DATA),
    "24-note-of-4084-before-data.wav": riff(FMT, note(4084), DATA),
    "24-note-cut-before-its-pad.wav": riff(FMT, bare(3)),
    "24-note-cut-behind-its-pad.wav": riff(FMT, note(3)),
    "24-note-of-1-not-padded-before-fmt.wav": riff(bare(1), FMT, DATA),
    "24-note-of-1-not-padded-before-data.wav": riff(FMT, bare(1), DATA),
    "24-note-of-3-not-padded-before-fmt.wav": riff(bare(3), FMT, DATA),
    "24-note-of-3-not-padded-before-data.wav": riff(FMT, bare(3), DATA),
    "24-note-not-padded-before-silence.wav": riff(FMT, bare(3), chunk(b"data", bytes(600))),
    "24-pad-past-32-bits.wav": riff(FMT, chunk(b"note", b"", size=4294967295), DATA),
    # 24, floats
    "24-bits-32-fmt-ends-at-4096.wav": riff(note(4050), FLOAT[18], FLOATS),
    "24-before-23-fmt-of-18-ends-at-4098.wav": riff(note(4052), float_fmt(tag=1), FLOATS),
    "24-before-23-fmt-of-18-less-1.wav": riff(float_fmt(tag=1))[:-1],
    "24-before-23-fmt-of-18-less-2.wav": riff(float_fmt(tag=1))[:-2],
    "24-before-23-last-byte-cut.wav": riff(float_fmt(more=b"\1", size=18)),
    "24-before-23-second-fmt-of-18.wav": riff(FLOAT[18], FLOAT[18])[:-1],
    "24-bits-32-fmt-less-1.wav": riff(FLOAT[18])[:-1],
    "24-bits-32-fmt-less-2.wav": riff(FLOAT[18])[:-2],
    "24-bits-32-fmt-of-16-less-1.wav": riff(FLOAT[16])[:-1],
    "24-bits-32-no-data.wav": riff(FLOAT[18], FACT),
    "24-bits-32-header-ends-at-4098.wav": riff(FLOAT[18], note(4044), FLOATS),
    # 25
    "25-part-of-24.wav": riff(FMT, chunk(b"data", TWO, size=5)),
    "25-part-of-16.wav": riff(fmt(bits=16), chunk(b"data", TWO, size=5)),
    "25-largest.wav": riff(FMT, chunk(b"data", TWO, size=4294967294)),
    "25-one-side-of-24.wav": riff(SIDES, chunk(b"data", TWO + TWO[:3])),
    "25-one-side-of-16.wav": riff(fmt(bits=16, channels=2), chunk(b"data", TWO)),
    "25-two-channels-largest.wav": riff(SIDES, chunk(b"data", TWO, size=4294967295)),
    "25-part-of-32.wav": riff(FLOAT[18], chunk(b"data", TWO)),
    "25-part-of-32-by-1.wav": riff(FLOAT[16], chunk(b"data", EIGHT[:9])),
    "25-part-of-32-by-3.wav": riff(FLOAT[18], chunk(b"data", EIGHT[:11])),
    "25-largest-of-32.wav": riff(FLOAT[18], chunk(b"data", EIGHT, size=4294967295)),
    "25-one-side-of-32.wav": riff(FLOAT_SIDES[18], chunk(b"data", EIGHT[:12])),
    "25-two-channels-part-of-32.wav": riff(FLOAT_SIDES[16], chunk(b"data", EIGHT[:10])),
    "25-two-channels-largest-of-32.wav": riff(FLOAT_SIDES[18], chunk(b"data", EIGHT, size=4294967292)),
}


def main(folder):
    """Writes them all."""
    for name, data in CASES.items():
        with open(os.path.join(folder, name), "wb") as f:
            f.write(data)


if __name__ == "__main__":
    main(sys.argv[1])

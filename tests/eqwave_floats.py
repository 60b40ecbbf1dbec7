"""Runs of the program on floats: their samples, files like those of 24 bits, and what stops a run."""
import subprocess
import threading
from fractions import Fraction
from itertools import cycle

from model.floats import FULL, SIGN, pattern, sample_of
from model.wave import chunk, file24, file_float, float_fmt, floats, riff, to_bytes
from runs import BLOCK, DELAY, PROGRAM, SIDES, ZERO, as_floats, as_wanted, equalised, expect, finite, noise, run, run_file, run_limited, run_slowly
from runs import samples, settings, wanted

BAD = (0x7FC00000, 0x7F800000, 0xFF800000, 0x7F800001, 0xFFFFFFFF)  # a NaN, the infinities, NaNs
REFUSED = b"refused 41\n"
FRONT, START = 4096, 46  # where the data of these files starts
FRAMES = 1601  # of files that are stopped: more than the front holds, odd, the last block a short one
LONG_SECONDS = 20  # of one channel; half as long of two


def edges(rng):
    """Both ends of every exponent, ties and their neighbours, and what is beyond 1.0: eight noughts give each one's sample."""
    ends = [exponent << 23 | digits for exponent in range(255) for digits in (0, 1, 1 << 22, (1 << 23) - 1, rng.randrange(1 << 23))]
    halves = (0, 1, 2, 3, 1000, 2**21, 2**22 - 1, 2**22, FULL - 2, FULL - 1)
    ties = [pattern(Fraction(2 * k + 1, 2 * FULL)) + beside for k in halves for beside in (-1, 0, 1)]
    patterns = [bits | sign for bits in ends + ties for sign in (0, SIGN)]
    want = file24(to_bytes([sample_of(bits) for bits in patterns]))
    for length in (16, 18):
        expect(f"floats at their edges, fmt of {length}", run(ZERO, file_float(floats(patterns), length=length)), (want, b""))


def files(rng):
    """Files of floats of both lengths of `fmt `, with and without a `fact` before the data."""
    kinds = cycle([(48000, 16, b""), (44100, 18, chunk(b"fact", bytes(4))), (48000, 18, b""), (44100, 16, chunk(b"fact", bytes(4)))])
    for channels in SIDES:
        for frames in (0, 1, 1142, 1143, 1144, 5001):
            for args in (ZERO, settings(rng)):
                rate, length, fact = next(kinds)
                source = riff(float_fmt(rate, channels, length), fact, chunk(b"data", noise(32, channels * frames, rng)))
                as_wanted(f"{frames} float frames of {channels}, fmt of {length}, {args}", args, source)


def like_24_bits(rng):
    """Floats of 24-bit samples give what the 24-bit file gives, and eight noughts that file."""
    for channels in SIDES:
        for frames in (1, 256, 257, 1143, 3001):
            data, args = samples(channels * frames, rng), settings(rng)
            plain, source = file24(data, 44100, channels), file_float(as_floats(data), 44100, channels)
            expect(f"floats of 24 bits, {frames} frames of {channels}", run(ZERO, source), (plain, b""))
            expect(f"floats like 24 bits, {frames} frames of {channels}, {args}", run(args, source), run(args, plain))


def loud(rng):
    """Beyond 1.0 either way a float is as the end of the range."""
    over = [rng.choice((pattern(Fraction(1)), 0x3F800001, 0x3FC00000, 0x42C80000, 0x7F7FFFFF)) | rng.choice((0, SIGN)) for _ in range(3000)]
    ends = to_bytes([-FULL if bits & SIGN else FULL - 1 for bits in over])
    for args in (ZERO, settings(rng)):
        expect(f"beyond 1.0, {args}", run(args, file_float(floats(over))), (equalised(args, ends), b""))


def spoiled(channels, places, kinds, rng):
    """A file of floats with a bad one at each place, a frame and a side."""
    patterns = [finite(rng) for _ in range(channels * FRAMES)]
    for frame, side in places:
        patterns[channels * frame + side] = next(kinds)
    return file_float(floats(patterns), channels=channels) + chunk(b"note", bytes(100))


def stops(name, source, channels, first, args):
    """A run ends at the block of its first bad frame: what is written and said, and how far the file is read."""
    before = first // BLOCK * BLOCK
    want = wanted(args, source)
    assert len(want[0]) == 44 + 3 * channels * max(0, before - DELAY) and want[1] == REFUSED
    got, reached = run_file(args, source)
    expect(name, got, want)
    asked = START + 4 * channels * min(before + BLOCK, FRAMES)
    expect(f"{name}: bytes read", (b"%d" % reached, b""), (b"%d" % max(FRONT, asked), b""))


# The ends of blocks; the sample that the front's edge cuts, of one channel and of two; the delay; the first block that is written from, the
# next one, and the last.
PLACES = (0, 1, 255, 256, 257, 506, 511, 512, 1012, 1023, 1024, 1142, 1143, 1144, 1279, 1280, 1281, 1535, 1536, 1600)


def bad_places(rng):
    """One bad float anywhere, on either side."""
    kinds = cycle(BAD)
    for channels in SIDES:
        for frame in PLACES:
            for side in range(channels):
                source = spoiled(channels, [(frame, side)], kinds, rng)
                stops(f"a bad float in frame {frame}, side {side} of {channels}", source, channels, frame, settings(rng))


def bad_kinds(rng):
    """Every kind in the block that is written from first; eight noughts too."""
    for channels in SIDES:
        for kind in BAD:
            for args in (ZERO, settings(rng)):
                source = spoiled(channels, [(1300, channels - 1)], cycle([kind]), rng)
                stops(f"{kind:08x} of {channels}, {args}", source, channels, 1300, args)


def several_bad(rng):
    """Several bad floats: the first one's block decides."""
    kinds = cycle(BAD)
    for places in ([(0, 0), (1, 0)], [(300, 0), (1400, 0)], [(1279, 0), (1280, 0)], [(1280, 0), (1279, 0)], [(1536, 0), (1600, 0)]):
        for channels in SIDES:
            source = spoiled(channels, places, kinds, rng)
            stops(f"bad floats at {places} of {channels}", source, channels, min(places)[0], settings(rng))
    for places in ([(1300, 0), (1300, 1)], [(1290, 1), (1300, 0)], [(1290, 0), (1300, 1)]):
        stops(f"bad floats on both sides at {places}", spoiled(2, places, kinds, rng), 2, min(places)[0], settings(rng))


def bad_and_short(rng):
    """Data that breaks off near a bad float: wholly there it stops the run, and nothing is said of missing data; else it is 0."""
    kinds = cycle(BAD)
    for channels in SIDES:
        said = 4 * channels * FRAMES
        for frame, side in [(frame, side) for frame in (0, 255, 256, 1300, 1600) for side in range(channels)]:
            for more in (-1, 0, 1, 2, 3, 4, 5):
                there = 4 * (channels * frame + side) + more
                data = spoiled(channels, [(frame, side)], kinds, rng)[START:START + said][:max(0, there)]
                source, args = riff(float_fmt(channels=channels), chunk(b"data", data, said)), settings(rng)
                want = wanted(args, source)
                assert want[1] == (REFUSED if more >= 4 else b"short %d\n" % (said - len(data)))
                expect(f"a bad float in frame {frame}, side {side} of {channels}, {more} bytes of it there", run(args, source), want)


def bad_past_the_data(rng):
    """Behind the data nothing is judged, nor are three bytes of 24 bits."""
    bad = floats(BAD)
    for frames in (1, 256, 1300):
        data = noise(32, frames, rng)
        args = settings(rng)
        want = wanted(args, file_float(data))
        expect(f"bad floats behind {frames} frames", run(args, file_float(data) + bad), want)
        expect(f"bad floats in a note behind {frames} frames", run(args, file_float(data) + chunk(b"note", bad)), want)
    data = 3 * bad
    expect("24 bits like bad floats", run(ZERO, file24(data)), (file24(data), b""))


def pipes(rng):
    """Floats that come slowly; and a pipe that stays open behind a bad one."""
    for channels, step in ((1, 1), (2, 1), (1, 997), (2, 4099)):
        for places in ([], [(200, 0)], [(1300, channels - 1)]):
            source, args = spoiled(channels, places, cycle(BAD), rng), settings(rng)
            expect(f"floats by {step} of {channels}, bad at {places}", run_slowly(args, source, step), wanted(args, source))
    for channels in SIDES:
        source, args = spoiled(channels, [(1300, 0)], cycle(BAD), rng), settings(rng)
        child = subprocess.Popen([PROGRAM] + args, stdin=subprocess.PIPE, stdout=subprocess.PIPE, stderr=subprocess.PIPE)
        late = threading.Timer(60, child.kill)
        late.start()
        child.stdin.write(source[:START + 4 * channels * 6 * BLOCK])
        child.stdin.flush()
        got = child.stdout.read(), child.stderr.read()
        late.cancel()
        child.stdin.close()
        child.wait(timeout=60)
        expect(f"a bad float and no end of {channels}", got, wanted(args, source))


def output_fails(rng):
    """Standard output that takes no more before the bad block is come to, and after."""
    line = b"eqwave: standard output: "
    early, late = (spoiled(1, [(frame, 0)], cycle(BAD), rng) for frame in (3, 1600))
    with open("/dev/full", "wb") as full:
        said = subprocess.run([PROGRAM] + ZERO, input=early, stdout=full, stderr=subprocess.PIPE, timeout=60).stderr
    expect("a full standard output before a bad float", (b"", said), (b"", line + b"No space left on device\n"))
    want = wanted(ZERO, late)[0]
    expect("room for the header alone", run_limited(ZERO, early, 44), (want[:44], REFUSED))
    expect("room for no output before a bad float", run_limited(ZERO, late, 44), (want[:44], line + b"File too large\n"))
    expect("room for the output before a bad float", run_limited(ZERO, late, len(want)), (want, REFUSED))


def long_files(rng):
    """Seconds of floats, byte for byte."""
    for channels in SIDES:
        data, args = samples(LONG_SECONDS // channels * 48000 * channels, rng), settings(rng)
        source = file_float(as_floats(data), channels=channels)
        expect(f"{LONG_SECONDS // channels} seconds of floats of {channels}", run(args, source), (equalised(args, data, channels), b""))


def all_of(rng):
    """All of them."""
    for part in (edges, files, like_24_bits, loud, bad_places, bad_kinds, several_bad, bad_and_short, bad_past_the_data, pipes, output_fails, long_files):
        part(rng)

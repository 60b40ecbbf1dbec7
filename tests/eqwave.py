#!/usr/bin/env python3
"""Runs the program that is built for what its stored run does not see: standard error, refusals, pipes, long files, floats.

Each expected byte is the model's. Exits with 1 if anything differs, or if the program was not built before. `--stored` writes the stored run."""
import os
import random
import subprocess
import sys
import tempfile
import time

import eqwave_blocks
import eqwave_floats
import runs
from model import program
from model.floats import check_floats
from model.wave import LARGEST, WHOLE, chunk, file24, fmt, read, riff, write
from runs import BITS, PROGRAM, SIDES, TOP, ZERO
from runs import as_wanted, equalised, expect, format_of, gains_of, interleaved, noise, refused, run, run_limited, run_slowly
from runs import samples, settings, wanted, widened

BUILT = os.path.join(TOP, "crates", "eqwave", "out", "eqwave")
STORED = os.path.join(TOP, "crates", "eqwave")
FILES = os.path.join(TOP, "tests", "files")
EXAMPLE = os.path.join(TOP, "examples", "chirp.wav")
LONG_SECONDS = 300  # of one channel; half as long of two


def stored():
    """The stored run: its arguments, its input and the model's output. It has 23 blocks, 18 of them read data, and a pad follows."""
    args = ["24", "-12", "0", "7", "-1", "0", "12", "24"]
    data = random.Random(4501).randbytes(2 * 4501)
    output = equalised(args, widened(data), rate=44100)
    return {"args": "".join(a + "\n" for a in args).encode(), "stdin": riff(fmt(44100, 16), chunk(b"data", data)), "stdout": output}


def stored_run(write):
    """The files of the stored run are those; or they are written."""
    for name, want in stored().items():
        with open(os.path.join(STORED, name), "wb" if write else "rb") as file:
            if write:
                file.write(want)
            else:
                expect(f"the stored run's {name}", (file.read(), b""), (want, b""))


def runs_agree(name, source, rng):
    """The model's run at once is its run block by block."""
    args = settings(rng)
    expect(f"the models on {name}", wanted(args, source), program.by_blocks(gains_of(args), source))


def models_agree(rng):
    """The trees in C and in Python; the runs, of data that breaks off and of floats that stop them too."""
    check_floats()
    expect("the trees in C and in Python", (bytes(runs.TREE.differs(rng)), b""), (b"", b""))
    for channels in SIDES:
        for bits in BITS:
            data = noise(bits, channels * 1501, rng)
            runs_agree(f"{bits} bits of {channels}", riff(format_of(bits, channels), chunk(b"data", data)), rng)
            runs_agree(f"{bits} bits of {channels}, cut", riff(format_of(bits, channels), chunk(b"data", data[:-5], len(data))), rng)
        for frame in (255, 1142, 1280, 1600):
            source = eqwave_floats.spoiled(channels, [(frame, channels - 1)], iter(eqwave_floats.BAD), rng)
            runs_agree(f"a bad float in frame {frame} of {channels}", source, rng)
        runs_agree(f"half of a bad float of {channels}", source[:-110], rng)


def whole_case():
    expect("the 50 bytes", run(ZERO, WHOLE), (WHOLE, b""))


def example():
    """The example's two commands."""
    with open(EXAMPLE, "rb") as file:
        source = file.read()
    rate, bits, length, start, channels = read(source)
    args = "12 6 0 0 0 0 -6 -12".split()
    expect("the example given back", run(ZERO, source), (source, b""))
    expect("the example, warm", run(args, source), (equalised(args, source[start:start + length], channels, rate), b""))


def zero_gives_back(rng):
    # with 137 frames and 1,143 of zeros the last block is full, as with 2,953
    for channels in SIDES:
        for frames in (0, 1, 136, 137, 138, 255, 256, 257, 1142, 1143, 1144, 1280, 2953, 4096, 9000, rng.randrange(20000)):
            for rate in (44100, 48000):
                source = file24(samples(channels * frames, rng), rate, channels)
                expect(f"all 0, {frames} frames of {channels} at {rate}", run(ZERO, source), (source, b""))
    source = file24(samples(3000, rng))
    expect("-0 and 00 are 0", run(["-0", "00", "-00"] + ZERO[3:], source), (source, b""))


def arguments():
    bad = ["", "-", "--1", "+1", "25", "-25", "100", "-100", "a", "1a", "a1", "1.5", " 1", "1 ", "-1 ", "- 1", "1-", "99", "000", "123456789", "\u0661"]
    for text in bad:
        for place in (0, 7):
            refused(f"argument {text!r} at {place}", ZERO[:place] + [text] + ZERO[place + 1:], WHOLE, 30)
    for args in ([], ZERO[:7], ZERO + ["0"], ZERO * 3):
        refused(f"{len(args)} arguments", args, WHOLE, 30)
    refused("a bad argument before a bad header", ["x"] + ZERO[1:], b"", 30)


def argument_values(rng):
    data = samples(1500, rng)
    for n in range(-24, 25):
        args = [str(n)] + ZERO[1:]
        expect(f"lowest band {n}", run(args, file24(data)), (equalised(args, data), b""))
    expect("two digits with a nought", run(["07"] + ZERO[1:], file24(data)), (equalised(["7"] + ZERO[1:], data), b""))


def headers():
    data = chunk(b"data", b"\1\0\0")
    beyond = chunk(b"note", b"\0" * 4090)
    for name, source, number in [
        ("nothing", b"", 21),
        ("11 bytes", WHOLE[:11], 21),
        ("RIFX", b"RIFX" + WHOLE[4:], 21),
        ("WAVX", WHOLE[:8] + b"WAVX" + WHOLE[12:], 21),
        ("data before fmt", riff(data, fmt()), 22),
        ("fmt of 18 bytes", riff(chunk(b"fmt ", b"\0" * 18), data), 23),
        ("a second fmt", riff(fmt(), fmt(), data), 23),
        ("tag 3", riff(fmt(tag=3), data), 23),
        ("three channels", riff(fmt(channels=3), chunk(b"data", b"\0" * 9)), 23),
        ("no channel", riff(fmt(channels=0), data), 23),
        ("two channels in a block of one", riff(fmt(channels=2, block=3), chunk(b"data", b"\0" * 6)), 23),
        ("one channel in a block of two", riff(fmt(block=6), chunk(b"data", b"\0" * 6)), 23),
        ("two channels at the byte rate of one", riff(fmt(channels=2, byte_rate=144000), chunk(b"data", b"\0" * 6)), 23),
        ("rate 96000", riff(fmt(rate=96000), data), 23),
        ("8 bits", riff(fmt(bits=8), data), 23),
        ("32 bits", riff(fmt(bits=32), data), 23),
        ("block size 4", riff(fmt(block=4), data), 23),
        ("byte rate", riff(fmt(byte_rate=1), data), 23),
        ("no data", riff(fmt()), 24),
        ("a cut chunk header", riff(fmt(), b"data\0"), 24),
        ("data past 4096", riff(fmt(), beyond, data), 24),
        ("a note without its pad before fmt", riff(chunk(b"note", b"abc", 3), fmt(), data), 24),
        ("a note without its pad before data", riff(fmt(), chunk(b"note", b"abc", 3), data), 24),
        ("4 bytes of data", riff(fmt(), chunk(b"data", b"\0" * 4)), 25),
        ("3 bytes of data in 16 bits", riff(fmt(bits=16), chunk(b"data", b"\0" * 3)), 25),
        ("one side of 24 bits", riff(fmt(channels=2), data), 25),
        ("a frame and one side of 24 bits", riff(fmt(channels=2), chunk(b"data", b"\0" * 9)), 25),
        ("a frame and one side of 16 bits", riff(fmt(bits=16, channels=2), chunk(b"data", b"\0" * 6)), 25),
        ("a frame and a byte of 16 bits", riff(fmt(bits=16, channels=2), chunk(b"data", b"\0" * 5)), 25),
        ("one side too long to be written", riff(fmt(channels=2), chunk(b"data", b"", LARGEST)), 25),
    ]:
        refused(name, ZERO, source, number)


def longest():
    """The longest data that can be written, and one frame more: 26. What is accepted is seen by the header, and then the pipe is closed."""
    for channels in SIDES:
        for bits in BITS:
            frames = min(LARGEST // (3 * channels), (2**32 - 1) // (channels * bits // 8))
            source = lambda count: riff(format_of(bits, channels), chunk(b"data", b"", channels * bits // 8 * count))
            if bits < 32:  # floats of any length are written in fewer bytes
                refused(f"one frame of {channels} too many, {bits} bits", ZERO, source(frames + 1), 26)
            child = subprocess.Popen([PROGRAM] + ZERO, stdin=subprocess.PIPE, stdout=subprocess.PIPE, stderr=subprocess.PIPE)
            child.stdin.write(source(frames))
            child.stdin.close()
            header = child.stdout.read(44)
            child.stdout.close()
            said = child.stderr.read()
            child.wait(timeout=60)
            want = write(44, 48000, 3 * channels * frames, channels), b"eqwave: standard output: Broken pipe\n"
            expect(f"{frames} frames of {channels}, {bits} bits", (header, said), want)


def accepted_headers(rng):
    for channels in SIDES:
        data = samples(2000 * channels, rng)
        args = settings(rng)
        want = (equalised(args, data, channels), b"")
        sound = fmt(channels=channels)
        before = chunk(b"LIST", b"x" * 100) + sound + chunk(b"fact", b"\0" * 4)
        expect(f"chunks before data, {channels}", run(args, riff(before, chunk(b"data", data))), want)
        expect(f"bytes after the data, {channels}", run(args, file24(data, 48000, channels) + b"LIST\x04\0\0\0abcd"), want)
        expect(f"any RIFF size, {channels}", run(args, riff(sound, chunk(b"data", data), size=0)), want)
        for length in (1, 3, 4043, 4044):
            note = chunk(b"note", b"x" * length)
            expect(f"a note of {length} before data, {channels}", run(args, riff(sound, note, chunk(b"data", data))), want)
            expect(f"a note of {length} before fmt, {channels}", run(args, riff(note, sound, chunk(b"data", data))), want)


def odd_data(rng):
    """Odd data is read with its pad, with any other byte in the pad's place, with chunks behind it, and without its pad; a zero byte follows what is written."""
    for frames in (1, 3, 1143, 2953, 4097):
        data, args = samples(frames, rng), settings(rng)
        want = equalised(args, data)
        assert len(want) == 44 + 3 * frames + 1 and want[-1] == 0
        bare = riff(fmt(), chunk(b"data", data, 3 * frames))
        for name, behind in (("its pad", b"\0"), ("another pad", b"\xa5"), ("no pad", b""), ("a note behind it", b"\0" + chunk(b"note", b"abc"))):
            expect(f"{frames} frames with {name}", run(args, bare + behind), (want, b""))
    data = samples(3, rng)
    expect("odd data that breaks off", run(ZERO, riff(fmt(), chunk(b"data", data[:7], 9))), (file24(data[:6] + bytes(3)), b"short 2\n"))


def kept_files(rng):
    """The files of tests/files: those of other tools, and the edge cases of the reader; but not where hours of data are said to follow."""
    kept = {}
    for name in sorted(name for name in os.listdir(FILES) if name.endswith(".wav")):
        with open(os.path.join(FILES, name), "rb") as file:
            kept[name] = file.read()
    for name, source in kept.items():
        found = read(source)
        if isinstance(found, int) or found[2] + found[3] <= len(source):
            as_wanted(name, settings(rng), source)
        if not isinstance(found, int) and found[1] == 24 and name.startswith("sox-"):
            expect(f"{name} given back", run(ZERO, source), (source, b""))
        if "-float-of-" in name:
            expect(f"{name} as 24 bits", run(ZERO, source), (kept["sox-" + name.split("-float-of-")[1]], b""))


def sixteen_bits(rng):
    for channels in SIDES:
        for frames in (0, 1, 255, 256, 257, 5000):
            data = rng.randbytes(2 * channels * frames)
            wide = widened(data)
            source = riff(fmt(44100, 16, channels=channels), chunk(b"data", data))
            expect(f"16 bits, {frames} frames of {channels}", run(ZERO, source), (file24(wide, 44100, channels), b""))
            args = settings(rng)
            expect(f"16 bits, {frames} frames of {channels}, {args}", run(args, source), (equalised(args, wide, channels, 44100), b""))


def two_sides(rng):
    """Each side of two is what the program makes of it alone; exchanged, equal and silent sides."""
    for frames in (1, 904, 905, 906, 2047, 2049, 5001):
        args = settings(rng)
        left, right, silent = samples(frames, rng), samples(frames, rng), bytes(3 * frames)
        alone = {}
        for side in (left, right):
            written, said = run(args, file24(side))
            expect(f"{frames} frames, a side alone", (written, said), (equalised(args, side), b""))
            alone[side] = written[44:44 + 3 * frames]
        alone[silent] = silent
        for name, first, second in (
            ("left and right", left, right),
            ("exchanged", right, left),
            ("equal", left, left),
            ("a silent right", left, silent),
            ("a silent left", silent, right),
        ):
            want = file24(interleaved(alone[first], alone[second]), channels=2)
            expect(f"{frames} frames, {name}", run(args, file24(interleaved(first, second), channels=2)), (want, b""))


def short_data(rng):
    """Data that breaks off anywhere in a frame: of two channels the left sample may be wholly there and the right one not."""
    for channels, all_frames, frames in ((1, 6001, (0, 1, 255, 256, 1366, 1535, 5000)), (2, 6000, (0, 1, 255, 256, 675, 1536, 5000))):
        for bits in BITS:
            size = bits // 8
            for whole in frames:
                for part in range(channels * size):
                    there = noise(bits, channels * (whole + 1), rng)[:channels * size * whole + part]
                    said = channels * size * all_frames
                    source = riff(format_of(bits, channels), chunk(b"data", there, said))
                    args = settings(rng)
                    want = wanted(args, source)
                    assert len(want[0]) == 44 + 3 * channels * all_frames + all_frames % 2 and want[1] == b"short %d\n" % (said - len(there))
                    expect(f"{bits} bits short at {whole} frames of {channels} and {part} bytes", run(args, source), want)
        frame = bytes(3 * channels)
        source = riff(fmt(channels=channels), chunk(b"data", b"", len(frame)))
        expect("nothing of the data", run(ZERO, source), (file24(frame, channels=channels), b"short %d\n" % len(frame)))
    # a frame of 1 and -1, without the last byte of -1: the left sample stays, and eight noughts give it back
    cut = riff(fmt(channels=2), chunk(b"data", WHOLE[44:49], 6))
    expect("a left sample by itself", run(ZERO, cut), (file24(b"\1" + bytes(5), channels=2), b"short 1\n"))


def slow_pipe(rng):
    stereo = [(file24(samples(2 * frames, rng), channels=2), step) for frames, step in ((1, 1), (701, 1), (10001, 997))]
    for source, step in ((WHOLE, 1), (file24(samples(701, rng)), 1), (file24(samples(20001, rng)), 997), *stereo):
        expect(f"{len(source)} bytes by {step} through a pipe", run_slowly(ZERO, source, step), (source, b""))


def output_fails(rng):
    source = file24(samples(200000, rng))
    line = b"eqwave: standard output: "
    with open("/dev/full", "wb") as full:
        said = subprocess.run([PROGRAM] + ZERO, input=source, stdout=full, stderr=subprocess.PIPE, timeout=60).stderr
    expect("a full standard output", (b"", said), (b"", line + b"No space left on device\n"))
    with tempfile.TemporaryFile() as file:
        file.write(source)
        file.seek(0)
        close = lambda: os.close(1)
        said = subprocess.run([PROGRAM] + ZERO, stdin=file, stderr=subprocess.PIPE, preexec_fn=close, timeout=60).stderr
        expect("a closed standard output", (b"", said), (b"", line + b"Bad file descriptor\n"))
        file.seek(0)
        child = subprocess.Popen([PROGRAM] + ZERO, stdin=file, stdout=subprocess.PIPE, stderr=subprocess.PIPE)
        first = child.stdout.read(44)
        child.stdout.close()
        said = child.stderr.read()
        child.wait(timeout=60)
        expect("a pipe that closes midway", (first, said), (source[:44], line + b"Broken pipe\n"))
    # a file that may not grow by the pad: the last sample is written, and `short` is not said
    odd = file24(samples(5, rng))
    cut = riff(fmt(), chunk(b"data", odd[44:58], 15))
    expect("no room for the pad", run_limited(ZERO, cut, len(odd) - 1), (odd[:56] + bytes(3), line + b"File too large\n"))


def memory_of(child):
    """The most memory that a running program has held, in kilobytes."""
    with open(f"/proc/{child.pid}/status") as status:
        return next(int(line.split()[1]) for line in status if line.startswith("VmHWM"))


def long_file(rng, folder, channels):
    """Several minutes through a pipe, byte for byte; the memory after the first megabyte is the memory at the end."""
    args = settings(rng)
    seconds = LONG_SECONDS // channels
    data = samples(seconds * 48000 * channels, rng)
    source = file24(data, channels=channels)
    path = os.path.join(folder, "long.wav")
    began = time.time()
    with open(path, "wb") as sink:
        child = subprocess.Popen([PROGRAM] + args, stdin=subprocess.PIPE, stdout=sink, stderr=subprocess.PIPE)
        child.stdin.write(source[:1000000])
        early = memory_of(child)
        child.stdin.write(source[1000000:-3])
        late = memory_of(child)
        said = child.communicate(source[-3:])[1]
    took = time.time() - began
    with open(path, "rb") as file:
        expect(f"{seconds} seconds of noise, {channels} channels, {args}", (file.read(), said), (equalised(args, data, channels), b""))
    expect("constant memory", (b"grew" if late > early + 1024 else b"", b""), (b"", b""))
    print(f"{seconds} seconds of 48,000 frames of {channels} took {took:.1f} s; memory {early} kB after a megabyte, {late} kB at the end")


def main():
    if sys.argv[1:] == ["--stored"]:
        with tempfile.TemporaryDirectory() as folder:
            runs.build(folder)
            stored_run(True)
        return 0
    seed = int(sys.argv[1]) if len(sys.argv) > 1 else 20261115
    rng = random.Random(seed)
    built = os.stat(BUILT)
    with tempfile.TemporaryDirectory() as folder:
        runs.build(folder)
        models_agree(rng)
        stored_run(False)
        whole_case()
        example()
        zero_gives_back(rng)
        arguments()
        argument_values(rng)
        headers()
        longest()
        accepted_headers(rng)
        odd_data(rng)
        kept_files(rng)
        sixteen_bits(rng)
        two_sides(rng)
        short_data(rng)
        slow_pipe(rng)
        output_fails(rng)
        eqwave_blocks.all_of(rng)
        eqwave_floats.all_of(rng)
        for channels in SIDES:
            long_file(rng, folder, channels)
    expect("no second build", (str(os.stat(BUILT).st_mtime_ns), ""), (str(built.st_mtime_ns), ""))
    print(f"eqwave: seed {seed}, {len(runs.tried)} cases, {len(runs.failures)} differ")
    return 1 if runs.failures else 0


if __name__ == "__main__":
    sys.exit(main())

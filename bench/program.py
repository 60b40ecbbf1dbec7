"""What the program costs, of one channel and of two, in ratios of times taken in turn, since a machine is not as fast at all times:

    program.py [--before PROGRAM] BLOCK COMMAND..

beside its block calls, timed by BLOCK, the program of bench/block.c, at eight bands; a file of floats beside the same of 24 bits; and the 24-bit
file beside PROGRAM, one from before. Two files of noise, a short and a long one: the start of the program falls out of the difference. COMMAND ends in
the program's name; words before it, an emulator's, stand before all three."""
import argparse
import os
import resource
import statistics
import struct
import subprocess
import sys
import tempfile

sys.path.insert(0, os.path.join(os.path.dirname(os.path.abspath(__file__)), "..", "tests"))
from model.wave import file24, file_float, samples

SHORT, LONG, TURNS, FRAMES = 100_000, 2_100_000, 7, 256  # frames of a block
ARGUMENTS = "0 1 2 3 4 5 6 7".split()
COLUMN = {1: 0, 2: 3}  # of what `block` prints, by channels


def kept(source):
    """A file of these bytes."""
    file = tempfile.TemporaryFile()
    file.write(source)
    return file


def noise(frames, channels):
    """A file of noise of 24 bits, and the same of floats."""
    data = os.urandom(3 * channels * frames)
    numbers = struct.pack(f"<{channels * frames}f", *(z / 8388608 for z in samples(data)))
    return kept(file24(data, channels=channels)), kept(file_float(numbers, channels=channels))


def seconds(command, file):
    """Processor time, the system's too: reading and writing are the program's own."""
    file.seek(0)
    before = resource.getrusage(resource.RUSAGE_CHILDREN)
    with tempfile.TemporaryFile() as written:
        subprocess.run(command + ARGUMENTS, stdin=file, stdout=written, check=True)
    after = resource.getrusage(resource.RUSAGE_CHILDREN)
    return after.ru_utime - before.ru_utime + after.ru_stime - before.ru_stime


def cost(command, short, long):
    """Nanoseconds that a frame takes in a program."""
    return 1e9 * (seconds(command, long) - seconds(command, short)) / (LONG - SHORT)


def block(words, channels):
    """Nanoseconds that a frame takes in `block`, in blocks as long as the program's."""
    command = words.command[:-1] + [words.block, "8", str(FRAMES), "9"]
    return float(subprocess.run(command, check=True, capture_output=True, text=True).stdout.split()[COLUMN[channels]])


def turn(words, channels, plain, floats):
    """The costs of one turn: the program, its block calls, floats, and the program from before."""
    before = block(words, channels)
    whole = cost(words.command, *plain)
    blocks = (before + block(words, channels)) / 2
    other = cost(words.command[:-1] + [words.before], *plain) if words.before else whole
    return whole, blocks, cost(words.command, *floats), other


def measure(words, channels):
    """The middle of the ratios, and the middle of each cost."""
    plain, floats = zip(noise(SHORT, channels), noise(LONG, channels))
    turns = [turn(words, channels, plain, floats) for _ in range(TURNS)]
    own, dearer, slower = (statistics.median(ratios) for ratios in zip(*((w / b, f / w, w / o) for w, b, f, o in turns)))
    whole, blocks, float_cost, other = (statistics.median(column) for column in zip(*turns))
    print(f"eqwave, channels {channels}: {whole:.1f} ns a frame, its block calls {blocks:.1f}: its own part is {own - 1:.2f} of theirs")
    print(f"eqwave, channels {channels}, floats: {float_cost:.1f} ns a frame, {dearer:.3f} times 24 bits")
    if words.before:
        print(f"eqwave, channels {channels}, the program from before: {other:.1f} ns a frame, this one {slower:.3f} times that")


parser = argparse.ArgumentParser()
parser.add_argument("--before")
parser.add_argument("block")
parser.add_argument("command", nargs=argparse.REMAINDER)
for channels in (1, 2):
    measure(parser.parse_args(), channels)

"""Runs of the program that is built, and what is expected of them: the model's bytes."""
import os
import resource
import struct
import subprocess
import tempfile
import time

from model import program
from model.compiled import Tree
from model.floats import FULL
from model.gains import GAINS
from model.wave import file24, float_fmt, floats, fmt
from model.wave import samples as decoded

TOP = os.path.join(os.path.dirname(os.path.abspath(__file__)), "..")
PROGRAM = os.path.join(TOP, "eqwave")
ZERO = ["0"] * 8
SIDES = (1, 2)
BITS = (16, 24, 32)
DELAY, BLOCK = 1143, 256  # frames
tried, failures = [], []
TREE = None


def build(folder):
    """The tree that reckons, compiled into a folder."""
    global TREE
    TREE = Tree(folder)


def run(args, source):
    """What the program writes, and what it says."""
    done = subprocess.run([PROGRAM] + args, input=source, stdout=subprocess.PIPE, stderr=subprocess.PIPE, timeout=300)
    return done.stdout, done.stderr


def run_file(args, source):
    """The same from a file, and how many bytes of it were read."""
    with tempfile.TemporaryFile() as file:
        file.write(source)
        file.seek(0)
        done = subprocess.run([PROGRAM] + args, stdin=file, stdout=subprocess.PIPE, stderr=subprocess.PIPE, timeout=300)
        return (done.stdout, done.stderr), os.lseek(file.fileno(), 0, os.SEEK_CUR)


def run_slowly(args, source, step):
    """The same through a pipe, so many bytes at a time; it may be closed before the last."""
    child = subprocess.Popen([PROGRAM] + args, stdin=subprocess.PIPE, stdout=subprocess.PIPE, stderr=subprocess.PIPE, bufsize=0)
    try:
        for i in range(0, len(source), step):
            child.stdin.write(source[i:i + step])
            if i < 64:
                time.sleep(0.001)
    except BrokenPipeError:
        pass
    return child.communicate()


def run_limited(args, source, size):
    """The same into a file that may not grow past a size."""
    limit = lambda: resource.setrlimit(resource.RLIMIT_FSIZE, (size, size))
    with tempfile.TemporaryFile() as file:
        said = subprocess.run(
            [PROGRAM] + args, input=source, stdout=file, stderr=subprocess.PIPE, preexec_fn=limit, restore_signals=False, timeout=60
        ).stderr
        file.seek(0)
        return file.read(), said


def expect(name, got, want):
    """Two (standard output, standard error) pairs are the same."""
    tried.append(name)
    for part, a, b in zip(("standard output", "standard error"), got, want):
        if a != b:
            at = next((i for i, (x, y) in enumerate(zip(a, b)) if x != y), min(len(a), len(b)))
            failures.append(name)
            print(f"DIFFERS {name}: {part} has {len(a)} bytes, wanted {len(b)}; first at {at}: {a[at:at + 24]!r}, wanted {b[at:at + 24]!r}")


def refused(name, args, source, number):
    """The program refuses with this number."""
    expect(name, run(args, source), (b"", b"refused %d\n" % number))


def gains_of(args):
    """The gains of eight arguments."""
    return [GAINS[int(a)] for a in args]


def reckon(args, data, channels=1):
    """What the program has to make of frames of 24-bit samples."""
    return TREE.outputs(gains_of(args), data, channels)


def equalised(args, data, channels=1, rate=48000):
    """The file that the program has to write for frames of 24-bit samples."""
    return file24(reckon(args, data, channels), rate, channels)


def wanted(args, source):
    """What the program has to write and to say for a file."""
    return program.run(TREE, gains_of(args), source)


def as_wanted(name, args, source):
    """The program does what the model does."""
    expect(name, run(args, source), wanted(args, source))


def samples(count, rng):
    """Random 24-bit samples with both ends of the range among them."""
    data = bytearray(rng.randbytes(3 * count))
    for end in (b"\xff\xff\x7f", b"\x00\x00\x80"):
        if count:
            at = 3 * rng.randrange(count)
            data[at:at + 3] = end
    return bytes(data)


def as_floats(data):
    """24-bit samples as floats, by the processor's division."""
    values = decoded(data)
    return struct.pack(f"<{len(values)}f", *(z / FULL for z in values))


def finite(rng):
    """A random float that is a number: any one, or one within the sample range, with more digits than a sample has or without."""
    exponent = rng.choice((rng.randrange(255), rng.randrange(100, 128), 126))
    return rng.randrange(2) << 31 | exponent << 23 | rng.randrange(1 << 23) & rng.choice((-1, -1 << rng.randrange(23)))


def noise(bits, count, rng):
    """Random samples of a format, as bytes."""
    return floats([finite(rng) for _ in range(count)]) if bits == 32 else rng.randbytes(bits // 8 * count)


def format_of(bits, channels, rate=48000, length=18):
    """A `fmt ` chunk; of floats it has 16 or 18 bytes."""
    return float_fmt(rate, channels, length) if bits == 32 else fmt(rate, bits, channels=channels)


def settings(rng):
    """Eight arguments."""
    return [str(rng.randint(-24, 24)) for _ in range(8)]


def widened(data):
    """16-bit samples as 24-bit ones."""
    return b"".join(b"\0" + data[i:i + 2] for i in range(0, len(data), 2))


def interleaved(left, right):
    """Frames of two sides of 24-bit samples."""
    return b"".join(left[i:i + 3] + right[i:i + 3] for i in range(0, len(left), 3))

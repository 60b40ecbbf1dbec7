"""Runs of the program at the edges of its blocks, 256 frames of any format, and at the front's edge."""
import subprocess
import threading

from model.wave import chunk, riff
from runs import BITS, BLOCK, DELAY, PROGRAM, SIDES, as_wanted, expect, format_of, noise, settings, wanted

FRONT = 4096
FORMATS = [(bits, channels) for bits in BITS for channels in SIDES]


def frame_of(bits, channels):
    """The bytes of a frame."""
    return channels * bits // 8


def file_of(bits, channels, frames, rng, note=b""):
    """A file of noise."""
    return riff(format_of(bits, channels), note, chunk(b"data", noise(bits, channels * frames, rng)))


def block_edges(rng):
    """Data that ends at a block's edge or beside it, and the zeros behind it likewise: 137 frames and 1,143 are five blocks."""
    for bits, channels in FORMATS:
        for edge in (137, BLOCK, 2 * BLOCK, DELAY + 137):
            for frames in (edge - 1, edge, edge + 1):
                as_wanted(f"{frames} frames of {channels}, {bits} bits", settings(rng), file_of(bits, channels, frames, rng))


def front_edges(rng):
    """Data over several blocks that ends within the front, and with the frame that its edge cuts."""
    for bits, channels in FORMATS:
        in_front = (FRONT - len(file_of(bits, channels, 0, rng))) // frame_of(bits, channels)
        for frames in (in_front - 1, in_front, in_front + 1):
            as_wanted(f"{frames} frames of {channels} at the front's edge, {bits} bits", settings(rng), file_of(bits, channels, frames, rng))


def late_starts(rng):
    """Data that starts late in the front or right behind it."""
    for bits, channels in FORMATS:
        for start in range(FRONT - 12, FRONT + 2, 2):
            note = chunk(b"note", bytes(start - 28 - len(format_of(bits, channels))))
            source = file_of(bits, channels, 600, rng, note)
            assert len(source) == start + 600 * frame_of(bits, channels)
            as_wanted(f"data from {start} on, {bits} bits, {channels} channels", settings(rng), source)


def written_early(rng):
    """What a block gives is written before more data has come than its own."""
    fed = 8 * BLOCK
    for bits, channels in FORMATS:
        args, source = settings(rng), file_of(bits, channels, fed + 2 * BLOCK, rng)
        want = wanted(args, source)
        there = len(source) - 2 * BLOCK * frame_of(bits, channels)
        child = subprocess.Popen([PROGRAM] + args, stdin=subprocess.PIPE, stdout=subprocess.PIPE, stderr=subprocess.PIPE)
        late = threading.Timer(60, child.kill)
        late.start()
        child.stdin.write(source[:there])
        child.stdin.flush()
        size = 44 + 3 * channels * (fed - DELAY)
        early = child.stdout.read(size)
        late.cancel()
        name = f"{fed} frames of {channels} and no end, {bits} bits"
        expect(name, (early, b""), (want[0][:size], b""))
        rest, said = child.communicate(source[there:])
        expect(f"{name}, then the end", (early + rest, said), want)


def all_of(rng):
    """All of them."""
    for part in (block_edges, front_edges, late_starts, written_early):
        part(rng)

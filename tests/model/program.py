"""A run of the program on a whole file: what it writes, and what it says. Twice: block by block in Python, and with a tree for long files."""
from collections import namedtuple

from model.tree import block, delay, prepared
from model.wave import read, samples, to_bytes, write

BANDS, FRAMES = 8, 256  # frames of a block
BAD = 41  # a NaN or an infinity

# The header to be written, the channels, the samples that are wholly there (None for a bad one), how many there should be, and the line on
# missing data.
Opened = namedtuple("Opened", "header channels there count short")


def refused(number, written=b""):
    """The line of a refusal, and what was written before it."""
    return written, b"refused %d\n" % number


def opened(source):
    """A file, or a refusal number: the reader's, then the writer's."""
    found = read(source)
    if isinstance(found, int):
        return found
    rate, bits, length, start, channels = found
    count, data = length // (bits // 8), source[start : start + length]
    header = write(44, rate, 3 * count, channels)
    if isinstance(header, int):
        return header
    return Opened(header, channels, samples(data, bits), count, b"short %d\n" % (length - len(data)) if len(data) < length else b"")


def by_blocks(gains, source):
    """The run as the rules tell it: block after block, until one has a bad sample."""
    file = opened(source)
    if isinstance(file, int):
        return refused(file)
    memory, late = prepared(BANDS, file.channels), file.channels * delay(BANDS)
    fed, step, written = file.there + [0] * (file.count - len(file.there) + late), file.channels * FRAMES, file.header
    for at in range(0, len(fed), step):
        part = fed[at : at + step]
        if None in part:
            return refused(BAD, written)
        output = [0] * len(part)
        assert block(memory, gains, part, output) == ("written", len(part) // file.channels)
        written += to_bytes(output[max(0, late - at) :])
    return written + bytes(file.count % 2), file.short


def run(tree, gains, source):
    """The same at once, by a tree that takes the delay out: what the blocks before a bad one give is told by their own samples."""
    file = opened(source)
    if isinstance(file, int):
        return refused(file)
    if None not in file.there:
        wanted = file.there + [0] * (file.count - len(file.there))
        return file.header + tree.outputs(gains, to_bytes(wanted), file.channels) + bytes(file.count % 2), file.short
    step = file.channels * FRAMES
    before = file.there.index(None) // step * step
    given = tree.outputs(gains, to_bytes(file.there[:before]), file.channels)
    return refused(BAD, file.header + given[: 3 * max(0, before - file.channels * delay(BANDS))])

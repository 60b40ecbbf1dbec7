"""WAVE files: building them, reading their header, and the sample codec."""
import struct

from model.floats import sample_of

RATES = (44100, 48000)


# ---- the builder: each part may be made wrong


def chunk(name, contents, size=None):
    """A chunk and its pad; or one that states a length, and nothing behind its contents."""
    if size is None:
        return chunk(name, contents, len(contents)) + b"\0" * (len(contents) % 2)
    return name + struct.pack("<I", size) + contents


def fmt(rate=48000, bits=24, tag=1, channels=1, block=None, byte_rate=None, more=b"", size=None):
    """A `fmt ` chunk, of 16 bytes and more."""
    block = channels * bits // 8 if block is None else block
    byte_rate = rate * block if byte_rate is None else byte_rate
    return chunk(b"fmt ", struct.pack("<HHIIHH", tag, channels, rate, byte_rate, block, bits) + more, size)


def float_fmt(rate=48000, channels=1, length=18, **others):
    """A `fmt ` chunk of floats, of 16 or 18 bytes."""
    return fmt(rate, **{"bits": 32, "tag": 3, "channels": channels, "more": bytes(length - 16), **others})


def riff(*chunks, size=None, first=b"RIFF", form=b"WAVE"):
    """A file of chunks."""
    body = form + b"".join(chunks)
    return first + struct.pack("<I", len(body) if size is None else size) + body


def file24(data, rate=48000, channels=1):
    """A file of 24-bit samples."""
    return riff(fmt(rate, channels=channels), chunk(b"data", data))


def floats(patterns):
    """Floats by their patterns, four bytes each."""
    return struct.pack(f"<{len(patterns)}I", *patterns)


def file_float(data, rate=48000, channels=1, length=18):
    """A file of floats."""
    return riff(float_fmt(rate, channels, length), chunk(b"data", data))


# 01, The program: the whole case. The samples are 1 and -1.
WHOLE = bytes.fromhex(
    "52 49 46 46 2A 00 00 00 57 41 56 45 66 6D 74 20 10 00 00 00 01 00 01 00 80 BB 00 00 80 32 02 00 03 00 18 00 64 61 74 61"
    "06 00 00 00 01 00 00 FF FF FF"
)
assert file24(WHOLE[44:]) == WHOLE


# ---- the header


def little(data):
    """A number of so many bytes, the lowest first."""
    return int.from_bytes(data, "little")


# tag, bits, and what stands behind the bits
FORMATS = ((1, 16, b""), (1, 24, b""), (3, 32, b""), (3, 32, b"\0\0"))


def right(body):
    """Whether the contents of a `fmt ` chunk have the right values."""
    tag, channels, rate, byte_rate, block, bits = struct.unpack("<HHIIHH", body[:16])
    if (tag, bits, body[16:]) not in FORMATS or channels not in (1, 2) or rate not in RATES:
        return False
    return block * 8 == channels * bits and byte_rate == rate * block


def read(lent):
    """The reader: (rate, bits, length, start, channels), or a refusal number."""
    front = lent[:4096]
    if len(front) < 12 or front[:4] != b"RIFF" or front[8:12] != b"WAVE":
        return 21
    at, sound = 12, None
    while True:
        if at + 8 > len(front):
            return 24
        name, size = front[at : at + 4], little(front[at + 4 : at + 8])
        if name == b"fmt ":
            if size not in (16, 18):
                return 23
            if at + 8 + size > len(front):
                return 24
            body = front[at + 8 : at + 8 + size]
            if sound or not right(body):
                return 23
            sound = (little(body[4:8]), little(body[14:16]), little(body[2:4]))
        elif name == b"data":
            if not sound:
                return 22
            rate, bits, channels = sound
            if size % (channels * bits // 8):
                return 25
            return (rate, bits, size, at + 8, channels)
        at += 8 + size + size % 2


def riff_size(length):
    """The RIFF size of a file of so many bytes of 24-bit samples: the pad counts."""
    return length + 36 + length % 2


LARGEST = max(n for n in range(2**32 - 100, 2**32) if riff_size(n) < 2**32)


def write(room, rate, length, channels):
    """The writer: the header of so many bytes of 24-bit samples, or a refusal number."""
    if room != 44:
        return 27
    if rate not in RATES:
        return 28
    if channels not in (1, 2):
        return 9
    if length % (3 * channels) or riff_size(length) >= 2**32:
        return 26
    return riff(fmt(rate, channels=channels), chunk(b"data", b"", length), size=riff_size(length))


# ---- the codec


def in_range(z):
    """Whether a number is a sample."""
    return -8388608 <= z <= 8388607


def sample(data):
    """The sample in two or three bytes, or None for another number of them."""
    if len(data) not in (2, 3):
        return None
    return int.from_bytes(data, "little", signed=True) * (256 if len(data) == 2 else 1)


def samples(data, bits=24):
    """The samples in bytes, as many as are wholly there; of floats None for a NaN and an infinity."""
    size = bits // 8
    parts = [data[i : i + size] for i in range(0, len(data) - size + 1, size)]
    return [sample_of(little(part)) if bits == 32 else sample(part) for part in parts]


def to_bytes(values):
    """Three bytes for each sample."""
    return b"".join((z % 2**24).to_bytes(3, "little") for z in values)

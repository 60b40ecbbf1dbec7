#!/usr/bin/env python3
"""Prints the lines that tests/files.c has to write for the files named, worked out by the model.

    python3 tests/wave_files.py tests/files/*.wav

The edge cases have to be among them, and as wave_cases.py builds them."""
import os
import re
import sys

from model.wave import read, samples, write
from wave_cases import CASES

ROOM, MOST = 8192, 8


def show(name, data):
    """The reader on a file, its first samples that are there, and its header written again."""
    answer = read(data)
    number = re.match(r"(\d\d)-", name)
    assert not number or answer == int(number[1]), f"{name} is answered {answer}"
    if isinstance(answer, int):
        print(f"{name} refused {answer}")
        return
    rate, bits, length, start, channels = answer
    print(name, rate, bits, length, start, channels)
    there = data[:ROOM][start : start + length]
    print(*["samples", *("refused-41" if z is None else z for z in samples(there, bits)[:MOST])])
    header = write(44, rate, length, channels)
    print("header", f"refused {header}" if isinstance(header, int) else header.hex())


def main(paths):
    """The files in their order."""
    files = {os.path.basename(path): path for path in paths}
    assert set(CASES) <= set(files)
    for name, path in files.items():
        with open(path, "rb") as f:
            data = f.read()
        assert CASES.get(name, data) == data, f"{name} is not as wave_cases.py builds it"
        show(name, data)


if __name__ == "__main__":
    main(sys.argv[1:])

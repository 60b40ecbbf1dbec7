#!/usr/bin/env python3
"""Writes chirp.wav: 1.4 seconds, 24 bits, 44,100 samples a second, a sine that climbs from 40 Hz to 16 kHz at a quarter of full scale.

Whole numbers only after the sine, so that the file is the same everywhere but for the last bit of a sine."""
import math
import os
import sys

sys.path.insert(0, os.path.join(os.path.dirname(os.path.abspath(__file__)), "..", "tests"))
from model.wave import file24, to_bytes

RATE, SECONDS, LOW, HIGH, PEAK = 44100, 1.4, 40.0, 16000.0, 2097152


def sample(n):
    t = n / RATE
    climb = math.log(HIGH / LOW) / SECONDS
    return round(PEAK * math.sin(2 * math.pi * LOW * (math.exp(climb * t) - 1) / climb))


def main(path):
    with open(path, "wb") as file:
        file.write(file24(to_bytes(sample(n) for n in range(int(RATE * SECONDS))), RATE))


main(sys.argv[1] if len(sys.argv) > 1 else "chirp.wav")

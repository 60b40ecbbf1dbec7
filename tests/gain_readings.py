"""Prints the lines that the program gain_readings has to write, worked out by the model."""
from fractions import Fraction

from model.floats import SIGN, pattern
from model.gains import decibels, factor
from words import told

SUBNORMAL, INFINITY, NAN = 0x007FFFFF, 0x7F800000, 0x7FC00000


def show(name, answer, patterns):
    """Each float, those next to it, and the negatives of all."""
    for middle in patterns:
        for signed in (middle, middle ^ SIGN):
            for bits in (signed - 1, signed, signed + 1):
                bits %= 1 << 32
                print(name, f"{bits:08x}", *told(answer(bits)))


show("decibels", decibels, [pattern(Fraction(n, 2)) for n in range(25)])
show("decibels", decibels, [pattern(Fraction(k, 4)) for k in (1, 50, 96)] + [SUBNORMAL, INFINITY, NAN])
show("factor", factor, [pattern(Fraction(k, 8192)) for k in (1, 3, 5, 8191, 8193, 32765, 32767)])
show("factor", factor, [0, SUBNORMAL] + [pattern(Fraction(k, 2)) for k in (2, 8, 25)] + [INFINITY, NAN])
print("off accepted 0")

"""Floats of 32 bits as their patterns: what they stand for, and which samples they are. Exact fractions throughout."""
from fractions import Fraction

from model.tree import LEAST, MOST, limit, nearest

SIGN = 1 << 31
FULL = 8388608  # the sample of 1.0, before the limit


def value(bits):
    """The number that a binary32 pattern stands for, or None for a NaN and an infinity."""
    sign = -1 if bits & SIGN else 1
    exponent = bits >> 23 & 255
    digits = bits & (1 << 23) - 1
    if exponent == 255:
        return None
    if exponent == 0:
        return sign * Fraction(digits, 1 << 149)
    return sign * Fraction((1 << 23) + digits) * Fraction(2) ** (exponent - 150)


def pattern(number):
    """The pattern of a number that binary32 holds: not negative, and 0 or normal."""
    if number == 0:
        return 0
    exponent = 127
    while number >= 2:
        number, exponent = number / 2, exponent + 1
    while number < 1:
        number, exponent = number * 2, exponent - 1
    digits = (number - 1) * (1 << 23)
    assert digits.denominator == 1 and 0 < exponent < 255
    return exponent << 23 | digits.numerator


def sample_of(bits):
    """The sample of a float: the nearest to its value times 8,388,608, limited; or None, refusal 41."""
    x = value(bits)
    if x is None:
        return None
    scaled = x * FULL
    return limit(nearest(scaled.numerator, scaled.denominator), LEAST, MOST)


def pattern_of(z):
    """The float of a sample, which loses nothing."""
    return pattern(Fraction(abs(z), FULL)) | (SIGN if z < 0 else 0)


def check_floats():
    """Floats whose samples are given, the ties and ends next to them, and samples there and back."""
    half, one, step = pattern(Fraction(1, 2)), pattern(Fraction(1)), pattern(Fraction(1, FULL))
    tie = pattern(Fraction(1, 2 * FULL))
    for bits, above, below in (
        (half, 4194304, -4194304),
        (one, MOST, LEAST),
        (one - 1, MOST, LEAST),
        (one - 2, MOST, -MOST),
        (step, 1, -1),
        (tie, 1, -1),
        (tie - 1, 0, 0),
        (pattern(Fraction(3, 2 * FULL)), 2, -2),
        (0, 0, 0),
        (1, 0, 0),
        (0x7F7FFFFF, MOST, LEAST),
        (0x7F800000, None, None),
        (0x7F800001, None, None),
        (0x7FC00000, None, None),
        (0x7FFFFFFF, None, None),
    ):
        assert (sample_of(bits), sample_of(bits | SIGN)) == (above, below), hex(bits)
    assert (half, one, step, tie) == (0x3F000000, 0x3F800000, 0x34000000, 0x33800000)
    for z in (LEAST, LEAST + 1, -4194305, -3, -1, 0, 1, 2, 4194303, MOST):
        assert sample_of(pattern_of(z)) == z
    assert pattern_of(0) == 0 and pattern_of(LEAST) == one | SIGN

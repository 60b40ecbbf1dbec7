"""`multiplications.py PROGRAM FORM..`: the multiplications that a frame costs each form at seven and at eight bands. What eight cost more is one line
and its gain."""
import collections
import re
import sys
from traced import disassembled, executed

KINDS = "by a constant", "of two numbers", "with a product of 128 bits", "packed"
program = sys.argv[1]
code, _ = disassembled(program)


def kind(instruction):
    """The kind of a multiplication of whole numbers; None of anything else."""
    if re.match(r"v?pmul", instruction):
        return KINDS[3]
    if not re.match(r"i?mul[bwlq]?\s", instruction):
        return None
    return KINDS[0] if "$" in instruction else KINDS[1] if "," in instruction else KINDS[2]


def a_frame(form, bands):
    """Once more round the rings, by kind and frame."""
    once, twice = (collections.Counter(kind(code.get(a, "")) for a in executed(program, bands, 4096, rounds, form)) for rounds in (1, 2))
    return {k: (twice[k] - once[k]) / (9 << (bands - 1)) for k in KINDS}


for form in sys.argv[2:]:
    seven, eight = a_frame(form, 7), a_frame(form, 8)
    more = {k: eight[k] - seven[k] for k in KINDS}
    print(f"{form}: {sum(seven.values()):.2f} a frame at seven bands, {sum(eight.values()):.2f} at eight; a line and its gain {sum(more.values()):.2f}: "
          + ", ".join(f"{more[k]:.2f} {k}" for k in KINDS))

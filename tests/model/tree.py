"""The block equaliser by the formulas of rules 3 and 5.

A memory is a list of places: the bands, the channels, the position, then the lines of the left side and, of two channels, those of
the right: for each line from line M down to line 2 a ring of 9·2^(M-1) places, where sample n of a line stands at place n modulo the
ring's length. A block is interleaved: sample n of side s, the left one 0, is at place channels·n + s.
"""

# 01, Prototype: i and c(i), where c(i) is not 0.
COEFFICIENTS = [(0, 313), (2, -1338), (4, 3593), (6, -8718), (8, 31158), (9, 50000)]
COEFFICIENTS += [(18 - i, c) for i, c in reversed(COEFFICIENTS[:-1])]
assert sum(c for _, c in COEFFICIENTS) == 100016 and sum(abs(c) for _, c in COEFFICIENTS) == 140240

LEAST, MOST = -8388608, 8388607
UNITY = 4096
LONGEST = 4096  # frames of a block
HEAD = 3  # places before the lines


def nearest(z, d):
    """z/d to the nearest whole number, a tie away from zero."""
    size = (2 * abs(z) + d) // (2 * d)
    return size if z >= 0 else -size


def limit(z, least, most):
    """z, or the end of the range that it is beyond."""
    return max(least, min(most, z))


def delay(M):
    """The delay t of M bands."""
    return 9 * (2 ** (M - 1) - 1)


def ring_length(M):
    """The places of one line: the farthest read, 18 samples back at the last line's stretch."""
    return 18 * 2 ** (M - 2)


def side_length(M):
    """The places of one side's lines."""
    return (M - 1) * ring_length(M)


def memory_length(M, channels):
    """The places of a memory, or refusal 1 or 9."""
    if not 2 <= M <= 10:
        return ("refused", 1)
    if channels not in (1, 2):
        return ("refused", 9)
    return ("places", HEAD + channels * side_length(M))


def prepare(M, channels, memory):
    """The delay and an empty history, or refusal 1, 9 or 2."""
    length = memory_length(M, channels)
    if length[0] == "refused":
        return length
    if len(memory) != length[1]:
        return ("refused", 2)
    memory[:] = [M, channels] + [0] * (len(memory) - 2)
    return ("delay", delay(M))


def fault(memory):
    """What is wrong with a lent memory: 31 its counts, 32 its length, 33 its position; or None."""
    length = memory_length(*memory[:2]) if len(memory) >= 2 else ("refused", 1)
    if length[0] == "refused":
        return 31
    if len(memory) != length[1]:
        return 32
    return None if 0 <= memory[2] < ring_length(memory[0]) else 33


def refusal(memory, gains, samples, output):
    """The first of the refusals 31, 32, 33, 4 to 8 that holds and its place, or None."""
    bad = [i for i, x in enumerate(samples) if not LEAST <= x <= MOST]
    if fault(memory):
        return (fault(memory), 0)
    if len(gains) != memory[0]:
        return (4, 0)
    if not all(0 <= g <= 16384 for g in gains):
        return (5, 0)
    if len(output) != len(samples) or len(samples) % memory[1]:
        return (6, 0)
    if len(samples) > LONGEST * memory[1]:
        return (7, 0)
    return (8, min(bad)) if bad else None


def below(line, L, past, new):
    """Line k-1 at the new samples, from line k with `past` samples before them and the stretch L."""
    # for each coefficient, line k at n - L·i for every new n
    taps = [[c * x for x in line[past - L * i : past - L * i + new]] for i, c in COEFFICIENTS]
    return [limit(nearest(sum(s), 100000), -(2**31), 2**31 - 1) for s in zip(*taps)]


def lines_of(M, at, rings, samples):
    """Every line of a side, k to its values: a ring's length of them before the block, then those of the block. Line 1 has no past."""
    size = ring_length(M)
    lines, new = {}, samples
    for k in range(M, 1, -1):
        ring = rings[(M - k) * size : (M - k + 1) * size]
        lines[k] = ring[at:] + ring[:at] + new
        new = below(lines[k], 2 ** (M - k), size, len(samples))
    lines[1] = new
    return lines


def held_back(lines, M, m, size, new):
    """Band m held back, at every new sample."""
    if m == 1:
        return lines[1]
    back = delay(M) - 9 * (2 ** (M + 1 - m) - 1)
    late = size - back - 9 * 2 ** (M - m)
    # line 1 has no past, and band 2 is not held back
    low = size - back if m > 2 else 0
    return [x - y for x, y in zip(lines[m][late : late + new], lines[m - 1][low : low + new])]


def weighed(bands, gains, feed):
    """The bands of a feed, each times its gain, added up at every new sample, rounded once and limited once."""
    sums = zip(*([gains[m - 1] * z for z in bands[m - 1]] for m in feed))
    return [limit(nearest(sum(values), UNITY), LEAST, MOST) for values in sums]


def one_side(M, at, rings, gains, samples, feeds):
    """A side's outputs for each feed, which is a list of bands, and its rings after the block."""
    size, new = ring_length(M), len(samples)
    lines = lines_of(M, at, rings, samples)
    bands = [held_back(lines, M, m, size, new) for m in range(1, M + 1)]
    after = (at + new) % size
    kept = [lines[k][-size:] for k in range(M, 1, -1)]
    return [weighed(bands, gains, feed) for feed in feeds], [z for last in kept for z in last[size - after :] + last[: size - after]]


def equalise(memory, gains, samples, feeds, outputs):
    """One pass: memory and the output of each feed are changed in place; the number of frames written."""
    M, channels, at = memory[:HEAD]
    for s in range(channels):
        start, end = HEAD + s * side_length(M), HEAD + (s + 1) * side_length(M)
        found, memory[start:end] = one_side(M, at, memory[start:end], gains, samples[s::channels], feeds)
        for output, values in zip(outputs, found):
            output[s::channels] = values
    frames = len(samples) // channels
    memory[2] = (at + frames) % ring_length(M)
    return ("written", frames)


def block(memory, gains, samples, output):
    """The number of frames written, or a refusal and its place; memory and output are changed in place."""
    refused = refusal(memory, gains, samples, output)
    if refused:
        return ("refused", *refused)
    return equalise(memory, gains, samples, [range(1, memory[0] + 1)], [output])


def crossover_refusal(memory, gains, split, samples, bass, horn):
    """The first of the refusals 31, 32, 33, 4, 10, 5 to 8 that holds and its place, or None."""
    refused = refusal(memory, gains, samples, bass if len(bass) != len(samples) else horn)
    if refused and refused[0] in (31, 32, 33, 4):
        return refused
    return refused if 1 <= split < memory[0] else (10, 0)


def crossover(memory, gains, split, samples, bass, horn):
    """The same for two feeds: bands 1..split and the others."""
    refused = crossover_refusal(memory, gains, split, samples, bass, horn)
    if refused:
        return ("refused", *refused)
    return equalise(memory, gains, samples, [range(1, split + 1), range(split + 1, memory[0] + 1)], [bass, horn])


def prepared(M, channels=1):
    """A memory of an empty history."""
    memory = [0] * memory_length(M, channels)[1]
    assert prepare(M, channels, memory) == ("delay", delay(M))
    return memory


def outputs(M, gains, samples):
    """What a prepared memory of one channel makes of up to 4,096 samples."""
    output = [0] * len(samples)
    assert block(prepared(M), gains, samples, output) == ("written", len(samples))
    return output


def check_bench():
    """Rule 14.2: the bench readings."""

    def at(M, gains, samples, places):
        """The outputs at these places, fed with the samples and then zeros."""
        output = outputs(M, gains, samples + [0] * 40)
        return [output[n] for n in places]

    assert at(2, [4096, 0], [100000], (0, 2, 9)) == [313, -1338, 50000]
    assert at(2, [0, 4096], [100000], (0, 2, 9)) == [-313, 1338, 50000]
    assert at(2, [4096, 4096], [100000], range(40)) == [0] * 9 + [100000] + [0] * 30
    assert at(2, [4096, 0], [16], (8, 6, 4, 2)) == [5, -1, 1, 0]
    assert at(2, [4096, 0], [1], [9]) == [1] and at(2, [0, 4096], [1], [9]) == [0]
    assert at(3, [4096, 0, 0], [100000], (0, 2, 4)) == [1, -4, 7]
    assert at(2, [2048, 2048], [1, -1, 3], (9, 10, 11)) == [1, -1, 2]
    assert at(2, [8192, 8192], [8000000, -8000000], (9, 10)) == [8388607, -8388608]
    assert [delay(M) for M in (2, 8, 10)] == [9, 1143, 4599]


def check_crossover():
    """Rule 14.2: the readings of two feeds; each feed alone and the memory are the block's, and refused calls change nothing."""
    signs = [(c > 0) - (c < 0) for c in (dict(COEFFICIENTS).get(i, 0) for i in range(19))]
    for gain, samples, at, expected in (
        (4096, [100000], (0, 2, 9), [(313, -313), (-1338, 1338), (50000, 50000)]),
        (2048, [2], (9,), [(1, 1)]),
        (4096, [MOST * sign for sign in signs], (18,), [(MOST, -3375575)]),
    ):
        fed, bass, horn = samples + [0] * (40 - len(samples)), [0] * 40, [0] * 40
        assert crossover(prepared(2), [gain] * 2, 1, fed, bass, horn) == ("written", 40)
        assert [(bass[n], horn[n]) for n in at] == expected
        assert samples != [100000] or [x + y for x, y in zip(bass, horn)] == [0] * 9 + [100000] + [0] * 30
    samples, gains = [8388607, -8388608, 1, -1, 100000, 7] * 10, [5000, 16384, 4096, 0, 1]
    for M in (2, 3, 5):
        for split in range(1, M):
            memory, plain, other = prepared(M, 2), prepared(M, 2), prepared(M, 2)
            feeds, alone = ([0] * 60, [0] * 60), ([0] * 60, [0] * 60)
            assert crossover(memory, gains[:M], split, samples, *feeds) == ("written", 30)
            assert block(plain, gains[:split] + [0] * (M - split), samples, alone[0]) == ("written", 30)
            assert block(other, [0] * split + gains[split:M], samples, alone[1]) == ("written", 30)
            assert feeds == alone and memory == plain == other
    for split, wrong, number in ((0, 4096, 10), (2, 4096, 10), (-1, 16385, 10), (1, 16385, 5)):
        memory = prepared(2)
        assert crossover(memory, [4096, wrong], split, [1], [5], [6]) == ("refused", number, 0) and memory == prepared(2)
    assert crossover(prepared(2), [4096], 0, [1], [5], [6]) == ("refused", 4, 0)
    assert crossover(prepared(2), [4096] * 2, 1, [1], [5], []) == ("refused", 6, 0)
    assert crossover(prepared(2), [4096] * 2, 1, [1], [], [6]) == ("refused", 6, 0)
    assert crossover(prepared(2), [4096] * 2, 1, [1, 8388608], [5] * 2, [6] * 2) == ("refused", 8, 1)


def check_sides():
    """Each side of two channels is what one channel makes of it, and so are its places; either side may be the left one."""
    left, right = [100000, -1, 8388607, 7], [-8388608, 16, 0, 3]
    for M in (2, 3):
        gains, alone = [1000 * m + 500 for m in range(M)], {}
        for name, side in (("left", left), ("right", right)):
            memory, output = prepared(M), [0] * 4
            assert block(memory, gains, side, output) == ("written", 4)
            alone[name] = output, memory[HEAD:]
        for first, second, one, other in ((left, right, "left", "right"), (right, left, "right", "left")):
            memory, output = prepared(M, 2), [0] * 8
            frames = [first[0], second[0], first[1], second[1], first[2], second[2], first[3], second[3]]
            assert block(memory, gains, frames, output) == ("written", 4)
            assert ([output[2 * n] for n in range(4)], [output[2 * n + 1] for n in range(4)]) == (alone[one][0], alone[other][0])
            assert memory == [M, 2, 4] + alone[one][1] + alone[other][1]
    assert [memory_length(M, 1)[1] for M in (2, 8, 10)] == [21, 8067, 41475]
    assert [memory_length(M, 2)[1] for M in (2, 8, 10)] == [39, 16131, 82947]

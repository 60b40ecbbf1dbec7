"""The readings of the block equaliser: prints the lines that the program readings has to write, worked out by the model; with
--cases, the cases as the program reads them: how many, and then the numbers of each, of 32 bits, the lowest byte first."""
import struct
import sys
from itertools import cycle, groupby
from operator import mul, ne

from model.tree import LEAST, MOST, block, check_bench, check_sides, memory_length, prepare, prepared, ring_length
from words import placed, told

MARK = 9999999


def total(places):
    """Every place as its 32 bits, times its index modulo 1,009 and one, modulo the largest prime below 2^32."""
    return sum(map(mul, [z % 2**32 for z in places], cycle(range(1, 1010)))) % 4294967291


def listed(places):
    """How many places, and each of them, or their total if they are many."""
    return [len(places), *(places if len(places) <= 40 else ["total", total(places)])]


def compared(before, places):
    """How many places have changed, and the list."""
    return [sum(map(ne, before, places)), *listed(places)]


# ---- cases and lines

cases, lines = [], []
LENGTH, PREPARE, BLOCK = 0, 1, 2
MEMORY, GAINS, INPUT, OUTPUT = 3, 4, 5, 6
lists = {MEMORY: [0] * 92163, GAINS: [0] * 10, INPUT: [0] * 8194, OUTPUT: [0] * 8194}


def case(*numbers):
    """One case for the program."""
    cases.append(numbers)


def code(z):
    """A place as the cases have it: from 0 on."""
    return z + 2**31


def line(*words):
    """One line of the program's."""
    lines.append(" ".join(map(str, words)))


def drawn(state):
    """The generator's next state."""
    return (state * 1103515245 + 12345) % 2**31


def counted(n):
    """The next in counting; before 0 stands 2^31 - 1."""
    return (n + 1) % 2**31


def fill(name, start, end, base, step=0, divisor=1, span=1, after=counted, x=0):
    """Places by a rule: of each number a part, so many steps from the base. Answers the last number."""
    case(name, start, end, int(after is drawn), x, divisor - 1, span - 1, code(base), step % 2**32)
    for i in range(start, end):
        x = after(x)
        lists[name][i] = (code(base) + x // divisor % span * step) % 2**32 - 2**31
    return x


def lend(name, wanted):
    """The first places of a list: those that are not there already are filled."""
    start = 0
    for value, same in groupby(wanted):
        end = start + len(list(same))
        if lists[name][start:end] != wanted[start:end]:
            fill(name, start, end, value)
        start = end


def show_length(M, channels):
    """The memory length."""
    case(LENGTH, code(M), code(channels))
    line("length", M, channels, *told(memory_length(M, channels)))


def show_prepare(M, channels, places):
    """Prepare on marked places."""
    before = [MARK] * places
    lend(MEMORY, before)
    case(PREPARE, code(M), code(channels), places)
    memory = list(before)
    answer = prepare(M, channels, memory)
    lists[MEMORY][:places] = memory
    line("prepare", M, channels, *told(answer), *compared(before, memory))


def show_lent(*lengths):
    """Block on the first places of the four lists, the output marked."""
    lend(OUTPUT, [MARK] * lengths[3])
    case(BLOCK, *lengths)
    before = [lists[name][:n] for name, n in zip([MEMORY, GAINS, INPUT, OUTPUT], lengths)]
    memory, gains, samples, output = map(list, before)
    line("block", len(memory), *listed(memory[:3]), *listed(gains), *listed(samples), len(output))
    answer = block(memory, gains, samples, output)
    lists[MEMORY][: len(memory)], lists[OUTPUT][: len(output)] = memory, output
    line("", *placed(answer), *compared(before[0], memory), *compared(before[3], output))


def show_block(memory, gains, samples, places):
    """Block on these lists and so many outputs."""
    lend(MEMORY, memory)
    lend(GAINS, gains)
    lend(INPUT, samples)
    show_lent(len(memory), len(gains), len(samples), places)


# ---- each call at its edges

# seven frames, and two
BEFORE = {
    1: [8388607, -8388608, 100000, -1, 7, 0, 16],
    2: [8388607, 3, -8388608, -8388608, 100000, 0, -1, 5, 7, -1, 0, 100000, 16, 8388607],
}
PAIR = {1: [1, -1], 2: [1, -7, -1, 7]}
BOTH = [4096, 4096]
SIDES = (1, 2)


def used(channels):
    """A memory of two bands after seven frames."""
    memory = prepared(2, channels)
    assert block(memory, BOTH, BEFORE[channels], [0] * len(BEFORE[channels])) == ("written", 7)
    return memory


def with_place(channels, at, value):
    """The same with one place changed."""
    memory = used(channels)
    memory[at] = value
    return memory


def with_sample(samples, at, value):
    """The same samples but for one."""
    return [*samples[:at], value, *samples[at + 1 :]]


ENDS = [-(2**31), 2**31 - 1]
BANDS = [*ENDS, -2, -1, 0, 1, 2, 3, 10, 11]
CHANNELS = [*ENDS, -1, 0, 1, 2, 3]


def show_counts():
    """Refusals 1 and 9 at their edges, and 1 before 9 before 2."""
    for channels in CHANNELS:
        for M in [1, 2, 11]:
            show_length(M, channels)
            for places in [3, 21, 39, 57]:
                show_prepare(M, channels, places)
    for channels in SIDES:
        for M in [*BANDS, *range(4, 10)]:
            show_length(M, channels)
        for M in BANDS:
            show_prepare(M, channels, memory_length(2, channels)[1])


def show_numbers(channels):
    """Refusals 31 to 33 and 4 to 8 at their edges, and an empty block."""
    pair = PAIR[channels]
    for place, values in enumerate([BANDS, CHANNELS, [*ENDS, -1, 0, 17, 18, 35, 36]]):
        for value in values:
            show_block(with_place(channels, place, value), BOTH, pair, len(pair))
    for gains in range(4):
        show_block(used(channels), [4096] * gains, pair, len(pair))
    for gain in [*ENDS, -1, 0, 16384, 16385]:
        for gains in ([gain, 4096], [4096, gain]):
            show_block(used(channels), gains, pair, len(pair))
    for new in range(5):
        for places in range(5):
            show_block(used(channels), BOTH, [5] * new, places)
    for new in range(4096 * channels - 2, 4096 * channels + 3):
        show_block(used(channels), BOTH, [5] * new, new)
    for at in range(len(pair)):
        for sample in [*ENDS, LEAST - 1, LEAST, MOST, MOST + 1]:
            show_block(used(channels), BOTH, with_sample(pair, at, sample), len(pair))


def show_places(channels):
    """Refusal 8 with its place: the first bad sample at every place, a second one behind it, and the last of the longest block."""
    good = BEFORE[channels]
    for first in range(len(good)):
        one = with_sample(good, first, MOST + 1)
        show_block(used(channels), BOTH, one, len(good))
        for second in range(first + 1, len(good)):
            show_block(used(channels), BOTH, with_sample(one, second, LEAST - 1), len(good))
    longest = [5] * (4096 * channels)
    for at in (0, len(longest) // 2, len(longest) - 1):
        show_block(used(channels), BOTH, with_sample(longest, at, MOST + 1), len(longest))


LENGTHS = {
    1: [0, 1, 2, 3, 20, 21, 22, 39, 75, 8067, 41474, 41475, 41476, 92163],
    2: [1, 2, 3, 21, 38, 39, 40, 147, 16131, 82946, 82947, 82948],
}


def show_lengths(channels):
    """Refusals 1, 2, 31 and 32: lengths with band counts near theirs."""
    for places in LENGTHS[channels]:
        bands = [1, 2, 3, 11] if places < 1000 else [8, 9, 10, 11]
        for M in bands:
            show_prepare(M, channels, places)
        for M in bands:
            show_block(([M, channels] + [0] * places)[:places], BOTH, PAIR[channels], len(PAIR[channels]))


def show_other_channels():
    """Refusal 31: three channels in memory as long as the formula would have them, and none."""
    show_block([2, 3] + [0] * 55, BOTH, [5] * 6, 6)
    show_block([2, 0, 0], BOTH, [], 0)


def show_memory_faults(channels):
    """Any faults of the memory together: 31, then 32, then 33; and memory that ends within its head."""
    for faults in range(16):
        memory = used(channels)
        if faults & 1:
            memory[0] = 11
        if faults & 2:
            memory[1] = 0
        if faults & 4:
            memory.append(0)
        if faults & 8:
            memory[2] = -1
        show_block(memory, BOTH, PAIR[channels], len(PAIR[channels]))
    for places in range(4):
        for head in ([2, channels, 0], [2, channels, 18], [2, 3, 0], [1, channels, 0]):
            show_block(head[:places], BOTH, PAIR[channels], len(PAIR[channels]))


def show_faults():
    """Any faults together: the earliest number is given."""
    for faults in range(64):
        memory = with_place(1, 2, 18) if faults & 1 else used(1)
        gains, samples = [4096] * (3 if faults & 2 else 2), [5] * (4097 if faults & 16 else 2)
        if faults & 4:
            gains[0] = 16385
        if faults & 32:
            samples[-1] = 8388608
        show_block(memory, gains, samples, len(samples) - (1 if faults & 8 else 0))
    # of two channels 6 has two faults of its own: another length, and a length that is not whole frames
    for faults in range(64):
        memory = with_place(2, 1, 3) if faults & 1 else used(2)
        gains, samples = [4096] * (3 if faults & 2 else 2), [5] * (3 if faults & 16 else 4)
        if faults & 4:
            gains[0] = 16385
        if faults & 32:
            samples[1] = 8388608
        show_block(memory, gains, samples, len(samples) - (2 if faults & 8 else 0))


# ---- courses of blocks

# frames
BLOCKS = [1, 0, 7, 40, 500, 4096, 33, 4096, 4096]
END_TO_END = {"base": MOST, "step": LEAST - MOST, "span": 2}


def impulse(n, new, state, channels):
    """100,000 at the start, and nothing after it; nothing at all on the right."""
    lend(INPUT, [100000 if i == 0 else 0 for i in range(n, n + new)])


def noise(n, new, state, channels):
    """Any sample, drawn."""
    fill(INPUT, 0, new, LEAST, step=1, divisor=128, span=2**24, after=drawn, x=state)


def square(n, new, state, channels):
    """37 frames at one end of the range, 37 at the other: equal sides."""
    fill(INPUT, 0, new, **END_TO_END, divisor=37 * channels, x=(n - 1) % 2**31)


def telegraph(n, new, state, channels):
    """One end of the range or the other, drawn."""
    fill(INPUT, 0, new, **END_TO_END, divisor=2**30, after=drawn, x=state)


def course(M, channels, signal):
    """Prepare, and then blocks with gains drawn for each. The lengths go round the longest line twice."""
    n, state, places = 0, M, memory_length(M, channels)[1]
    show_prepare(M, channels, places)
    for frames in BLOCKS:
        new = channels * frames
        state = fill(GAINS, 0, M, 0, step=1, divisor=8, span=16385, after=drawn, x=state)
        signal(n, new, state, channels)
        show_lent(places, M, new, new)
        n += new
        for _ in range(new):
            state = drawn(state)


def any_places(M, channels, position):
    """Signal places at the ends of 32 bits, and a gain for line 1 alone that the sample range holds."""
    places = memory_length(M, channels)[1]
    fill(MEMORY, 0, places, 2**31 - 1, step=1, divisor=2**30, span=2, after=drawn, x=M)
    lend(MEMORY, [M, channels, position])
    lend(GAINS, [8] + [0] * (M - 1))
    lend(INPUT, [MOST] * 40)
    show_lent(places, M, 40, 40)


def show_courses(channels):
    """Every signal and any places, at 2, 3, 8 and 10 bands."""
    for signal in [impulse, noise, square, telegraph]:
        for M in [2, 3, 8, 10]:
            course(M, channels, signal)
    for M in [2, 3, 8, 10]:
        for position in [0, ring_length(M) - 1, ring_length(M)]:
            any_places(M, channels, position)


if __name__ == "__main__":
    check_bench()
    check_sides()
    show_counts()
    for side in SIDES:
        show_numbers(side)
        show_places(side)
        show_lengths(side)
        show_memory_faults(side)
    show_other_channels()
    show_faults()
    for side in SIDES:
        show_courses(side)
    if "--cases" in sys.argv:
        numbers = [len(cases), *(number for numbers in cases for number in numbers)]
        sys.stdout.buffer.write(struct.pack(f"<{len(numbers)}I", *numbers))
    else:
        print(*lines, sep="\n")

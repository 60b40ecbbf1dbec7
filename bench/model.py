"""`model.py PROGRAM`: the program is traced at eight bands, each side twice round the rings, and modelled."""
import collections
import re
import subprocess
import sys
from traced import disassembled, executed

SIDES = {"oeq": r"oeq_block|\w+::", "plain": r"tree_block|step"}
SAMPLES = 2304  # twice round the rings of eight bands
PROCESSORS = ["skylake", "znver2"]
MISS = 16  # cycles
program = sys.argv[1]


def own(trace, side):
    """What a side executed, without the program around it."""
    return [a for a in trace if re.match(SIDES[side], function.get(a, ""))]


def samples(trace):
    """Where each sample begins, on the average: by rows no instruction begins a sample."""
    return [len(trace) * i // SAMPLES for i in range(SAMPLES + 1)]


def modelled(address):
    """An instruction for llvm-mca, which knows no stack engine: pushes and pops are plain stores and loads."""
    text = re.sub(r"<[^>]*>", "", code[address]).strip()
    name = text.split()[0]
    if "nop" in name or name == "data16":
        return "nop"
    if name.startswith("j"):
        return name + " .L0"
    return {
        "call": "movq %rax,-8(%rsp)\njmp .L0",
        "ret": "jmp *8(%rsp)",
        "push": f"movq {text.split()[-1]},-8(%rsp)",
        "pop": f"movq 8(%rsp),{text.split()[-1]}",
    }.get(name, text)


def cycles(trace, starts, processor):
    """The mean over runs of 32 samples, as long as a row, spread over the second time round."""
    total = count = 0
    for i in range(len(starts) // 2, len(starts) - 33, len(starts) // 24):
        run = ".L0:\n" + "\n".join(modelled(a) for a in trace[starts[i]:starts[i + 32]]) + "\n"
        out = subprocess.run(["llvm-mca", "-mtriple=x86_64", "-mcpu=" + processor, "-iterations=1"], input=run, capture_output=True, text=True, check=True).stdout
        total, count = total + int(re.search(r"Total Cycles:\s+(\d+)", out)[1]), count + 32
    return total / count


def jumps(trace, starts):
    """Conditional jumps a sample, and those missed by two tables of two-bit counters, by address and with history, and a chooser."""
    plain, with_history, chooser, history, seen, missed = collections.Counter(), collections.Counter(), collections.Counter(), 0, 0, 0
    half = starts[len(starts) // 2]
    for i, (a, following) in enumerate(zip(trace, trace[1:])):
        jump = re.match(r"j(?!mp)\w+\s+([0-9a-f]+)", code.get(a, ""))
        if not jump:
            continue
        taken, key = following == int(jump[1], 16), (a, history)
        guesses = plain[a] >= 0, with_history[key] >= 0
        if half <= i < starts[-1]:
            seen, missed = seen + 1, missed + (guesses[chooser[a] >= 0] != taken)
        if guesses[0] != guesses[1]:
            chooser[a] = max(-4, min(3, chooser[a] + (1 if guesses[1] == taken else -1)))
        for table, at in (plain, a), (with_history, key):
            table[at] = max(-2, min(1, table[at] + (1 if taken else -1)))
        history = (2 * history + taken) % 2**32
    count = len(starts) - 1 - len(starts) // 2
    return seen / count, missed / count


code, function = disassembled(program)
for side in SIDES:
    trace = own(executed(program, 8, 4096, 2, side), side)
    starts = samples(trace)
    seen, missed = jumps(trace, starts)
    print(f"{side}: {(starts[-1] - starts[0]) / (len(starts) - 1):.0f} instructions a sample, {seen:.0f} conditional jumps, {missed:.1f} missed")
    for processor in PROCESSORS:
        c = cycles(trace, starts, processor)
        print(f"    {processor}: {c:.0f} cycles and {MISS} a miss: {c + MISS * missed:.0f}")

"""The tree in C, for long files: compiled, and held to the tree in Python."""
import os
import subprocess

from model.tree import block, check_crossover, crossover, delay, prepared
from model.wave import samples, to_bytes

HERE = os.path.dirname(os.path.abspath(__file__))


class Tree:
    """The compiled tree, in a folder of its own."""

    def __init__(self, folder):
        self.program = os.path.join(folder, "reckon")
        sources = [os.path.join(HERE, name) for name in ("reckon.c", "tree.c")]
        subprocess.run(["cc", "-O2", "-o", self.program, *sources], check=True)

    def outputs(self, gains, data, channels=1, split=0):
        """What frames of 24-bit samples give, the delay taken out, as bytes; with a split, of each sample the bass feed's and the horn's."""
        command = [self.program, str(channels), str(split), *map(str, gains)]
        return subprocess.run(command, input=data, stdout=subprocess.PIPE, check=True).stdout

    def differs(self, rng):
        """The band counts, if any, at which the two trees differ on noise, gains drawn for each; of two channels with 100 added."""
        check_crossover()
        return [M + 100 * (channels - 1) for channels in (1, 2) for M in range(2, 11) if not self.same(M, channels, rng)]

    def same(self, M, channels, rng):
        """Whether the two trees agree at M bands, of one output and of two feeds at a split that is drawn."""
        return all(self.alike(M, channels, split, rng) for split in (0, rng.randrange(1, M)))

    def alike(self, M, channels, split, rng):
        """Whether they agree at this split; 0 is none."""
        gains, data = [rng.randint(0, 16384) for _ in range(M)], rng.randbytes(3 * 6000)
        late = channels * delay(M)
        memory, fed, found = prepared(M, channels), samples(data) + [0] * late, []
        for start in range(0, len(fed), 4000):
            part = fed[start : start + 4000]
            feeds = [[0] * len(part) for _ in range(2 if split else 1)]
            called = crossover(memory, gains, split, part, *feeds) if split else block(memory, gains, part, *feeds)
            assert called == ("written", len(part) // channels)
            found += zip(*feeds)
        return to_bytes([z for values in found[late:] for z in values]) == self.outputs(gains, data, channels, split)

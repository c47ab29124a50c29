#!/usr/bin/env python3
"""Writes a tree with names like those of a kernel's sources, which `dcbench look --tree` and the peers of bench/peers
read.

usage: bench/trees.py NAMES evenly|zipf > TREE

There are NAMES names, one in 16 a directory. They have 1 to 40 bytes, half of them at most 10. Paths have 1 to 12
names, five on average. `evenly` asks for each file once, in a random order. `zipf` asks as often, but for the file
that is asked most twice as often as for the next, three times as often as for the third, and so on: a path that is
asked more than once has as many lines. Programs draw evenly from the lines, and so look paths up as often as these
ask for them. The same words write the same tree.
"""
import itertools
import random
import string
import sys

LETTERS = string.ascii_lowercase + string.digits + "-_"
MEDIAN, SPREAD, LONGEST, DEEPEST = 10, 0.5, 40, 12
TO_A_DIRECTORY = 16
ORDERS = ("evenly", "zipf")


class Names:
    """Names that no directory has twice."""

    def __init__(self, draw):
        self.draw, self.taken = draw, set()
        self.letters = "".join(draw.choices(LETTERS, k=1 << 20))

    def new(self, parent):
        """The path of a new name in a directory."""
        while True:
            length = min(max(round(self.draw.lognormvariate(0, SPREAD) * MEDIAN), 1), LONGEST)
            at = self.draw.randrange(len(self.letters) - length)
            path = f"{parent}/{self.letters[at:at + length]}"
            if path not in self.taken:
                self.taken.add(path)
                return path


def depth_of(draw, most):
    """How many names a path has, from 1 to the most."""
    return 1 + sum(draw.random() < 0.36 for _ in range(most - 1))


def made(count, draw):
    """The directories, each behind the one above it, and the files of a tree of this many names."""
    names, levels = Names(draw), [[""]] + [[] for _ in range(DEEPEST - 1)]
    for _ in range(count // TO_A_DIRECTORY):
        above = depth_of(draw, DEEPEST - 1) - 1
        while not levels[above]:
            above -= 1
        levels[above + 1].append(names.new(draw.choice(levels[above])))
    files = []
    while len(names.taken) < count:
        above = depth_of(draw, DEEPEST) - 1
        if levels[above]:
            files.append(names.new(draw.choice(levels[above])))
    return list(itertools.chain(*levels[1:])), files


def lines_of(count, order):
    """The lines of a tree."""
    draw = random.Random(count)
    directories, files = made(count, draw)
    lines = [f"d {path}\n" for path in directories]
    if order == "evenly":
        return lines + [f"f {path}\n" for path in files]
    weights = list(itertools.accumulate(1 / rank for rank in range(1, len(files) + 1)))
    draw.shuffle(files)
    asked = draw.choices(files, cum_weights=weights, k=len(files))
    return lines + [f"c {path}\n" for path in files] + [f"p {path}\n" for path in asked]


def main():
    words = sys.argv[1:]
    if len(words) != 2 or not words[0].isdecimal() or int(words[0]) < TO_A_DIRECTORY or words[1] not in ORDERS:
        sys.exit(__doc__)
    sys.stdout.writelines(lines_of(int(words[0]), words[1]))


if __name__ == "__main__":
    main()

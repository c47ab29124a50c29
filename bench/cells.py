"""What bench/compare runs: the kinds of work and their sizes, how the cache is asked, and what was measured."""

import collections
import math
import os

from building import FROM_C, LIMIT, OPENS, TMPFS

CACHE, ONE_HOLD, WIDE = "the cache", "the cache, by resolve", "the cache, by resolve, 65,536 buckets"
WIDE_LIMIT, WIDE_FROM_C = "by hand in C, 65,536 buckets", "the cache, from C, 65,536 buckets"
# The cache by the words that it is asked with, and the peers that it is beside with as many buckets.
WAYS = {CACHE: [], ONE_HOLD: ["--one-hold"], WIDE: ["--one-hold", "--buckets", 65_536]}
WIDE_PEERS = {WIDE_LIMIT: LIMIT, WIDE_FROM_C: FROM_C}
COUNTS = [1 << i for i in range(os.cpu_count().bit_length())]
# A kind of work in a tree: how many names its paths have, how many files it has, and the buckets if they aren't 1,024.
Cell = collections.namedtuple("Cell", "work depth hot buckets", defaults=(1_000, None))
# The same in a tree of this many names like real ones.
Tree = collections.namedtuple("Tree", "work names order buckets")
CHANGES = Cell("change", 1)
LINKS = [Cell("links", 4), Cell("links", 8)]
# Who follows links, beside the walk by hand.
FOLLOWING = (CACHE, FROM_C, TMPFS)
READS = [Cell("read", 1), Cell("read", 4), Cell("read", 8)]
COMPARED = [*READS, Cell("absent", 4), Cell("mixed", 4), Cell("churn", 4), CHANGES]
DEPTHS = (1, 2, 4, 8)
FILES = (500, 1_000, 2_000, 4_000, 8_000, 16_000, 20_000, 32_000, 90_000)
HOT = [Cell("hot", 2, count) for count in FILES]
CROWD = 65_536
# By the names of a tree: the buckets of a table that fits them, and of one that doesn't, and the most rounds.
SIZES = {100_000: (1 << 16, 1 << 13, 2), 1_000_000: (1 << 19, 1 << 16, 1)}


def is_changing(cell):
    return cell.work in ("mixed", "churn", "change")


class Turn:
    """What a program told of a run: nanoseconds of a call, million calls a second, and all else."""

    def __init__(self, cell, row):
        self.row, self.threads = row, row["threads"]
        self.rate = row["changes_a_second" if "changes_a_second" in row else "calls_a_second"] / 1e6
        self.median = row["median_ps"] / 1000
        is_shared = self.threads > 1 and is_changing(cell)
        self.takes = 1000 * self.threads / self.rate if is_shared else self.median


class Measured:
    """What the rounds gave: the turns of each program, cell and number of threads, and how many times as long each took
    as the walk by hand beside it; and figures by what they are of."""

    def __init__(self):
        self.turns, self.ratios, self.figures = (collections.defaultdict(list) for _ in range(3))

    def add(self, name, cell, turns, of_limit):
        for threads, turn in turns.items():
            self.turns[name, cell, threads].append(turn)
            if threads in of_limit:
                self.ratios[name, cell, threads].append(turn.takes / of_limit[threads].takes)

    def ratio(self, name, cell, threads=1):
        """Of each round, how many times as long a call took as one of the walk by hand beside it."""
        return self.ratios.get((name, cell, threads), [])

    def best(self, name, cell, threads=1):
        """The least nanoseconds of a call."""
        return min((turn.median for turn in self.turns.get((name, cell, threads), [])), default=math.nan)

    def rate(self, name, cell, threads=1):
        """The most million calls a second."""
        return max((turn.rate for turn in self.turns.get((name, cell, threads), [])), default=math.nan)

    def beside(self, key, other, value):
        """Of each round, by how much a value of one key is that of another."""
        return [value(turn) / value(beside) for turn, beside in zip(self.turns.get(key, []), self.turns.get(other, []))]


def hot_names(programs):
    """The programs as the files grow: those with as many buckets stand side by side."""
    wide = [name for name, peer in WIDE_PEERS.items() if peer in programs.built]
    others = [name for name in programs.built if name not in (TMPFS, OPENS)]
    return [CACHE, ONE_HOLD, *others, *wide, WIDE, *([TMPFS] if TMPFS in programs.built else [])]


def tree_cells(names):
    """The cells of a tree by what the tables call them."""
    fits, few, _ = SIZES[names]
    for what, work, buckets in (("hit", "read", fits), ("absent", "absent", fits), ("evicted", "read", few)):
        for order in ("evenly", "zipf"):
            yield what + (", Zipf" if order == "zipf" else ""), Tree(work, names, order, buckets)


def tree_names(programs):
    return [ONE_HOLD, *(name for name in programs.built if name != OPENS)]

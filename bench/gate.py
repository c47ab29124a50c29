#!/usr/bin/env python3
"""Runs the gate, and tells where its minutes of processor go.

usage: bench/gate.py [--every SECONDS] [COMMAND ..]

The command is `.ci/run` unless another one is given, as `RT_JOBS=1 rt ci --anew`, whose first words may set the environment.
Once a second, or as often as is said, the processor time of each process below it is read; a process that began and ended
between two readings is missed. Behind what the command prints stands a table: for each crate the minutes of its proof, of
its tests (which are proved and compiled by one process), of `first`, the second proof of a crate with must-fail edits that
these begin with, and of the edits. `the rest` compiles and links programs, runs them and the tests, and is examples/check.
rattle-kit-13b tells `first` from the edits by no name, so it counts among them. Ends as the command does.
"""

import os
import pathlib
import re
import subprocess
import sys
import threading
import time

sys.path.insert(0, str(pathlib.Path(__file__).resolve().parent))
sys.dont_write_bytecode = True
from results import commit  # noqa: E402

PARTS = ("proofs", "tests", "first", "edits", "the rest")
TICKS = os.sysconf("SC_CLK_TCK")
CRATE = re.compile(r"--crate-name (\w+)")


def part_of(words, folder):
    """The crate and the part that a process works for, by its words and the folder that it runs in."""
    found = CRATE.search(words)
    if not found or "rattle" not in words.split(" ", 1)[0]:
        return None
    if "/rt-edit" in f"{folder} {words}":
        part = "first" if re.search(r"/rt-edits-[^ ]*/seed( |$)", words) else "edits"
    elif " --crate-checked" in words:
        part = "the rest"
    else:
        part = "tests" if " --test" in words else "proofs"
    return found[1], part


def read(process):
    """A process's parent, beginning, ticks of processor, words and folder, unless it has ended."""
    try:
        stat = (process / "stat").read_text().rpartition(")")[2].split()
        words = (process / "cmdline").read_bytes().replace(b"\0", b" ").decode(errors="replace")
    except OSError:
        return None
    try:
        folder = os.readlink(process / "cwd")
    except OSError:
        # It has ended and isn't waited for yet, or it is another user's.
        folder = ""
    return int(stat[1]), stat[19], int(stat[11]) + int(stat[12]), words.strip(), folder


class Samples:
    """The ticks of each process below one, as they were last seen."""

    def __init__(self, top):
        self.top, self.seen = top, {}

    def take(self):
        running = {int(it.name): read(it) for it in pathlib.Path("/proc").iterdir() if it.name.isdigit()}
        running = {number: it for number, it in running.items() if it}
        for number, (_, begun, ticks, _, _) in running.items():
            above, part = number, None
            while above in running and above != self.top:
                part = part or part_of(*running[above][3:])
                above = running[above][0]
            if above == self.top:
                # A process that has ended and isn't waited for yet has no words any more.
                before, _ = self.seen.get((number, begun), (("", "the rest"), 0))
                self.seen[number, begun] = part or before, ticks

    def minutes(self):
        """The minutes of each part, by crate."""
        told = {}
        for (crate, part), ticks in self.seen.values():
            row = told.setdefault(crate, dict.fromkeys(PARTS, 0))
            row[part] += ticks / TICKS / 60
        return told


def line(name, row):
    return f"{name:14}" + "".join(f"{it:10.1f}" for it in (*row, sum(row)))


def table(told, clock):
    yield f"{'minutes':14}" + "".join(f"{it:>10}" for it in (*PARTS, "in all"))
    rows = {crate or "no crate": [row[it] for it in PARTS] for crate, row in told.items()}
    for crate in sorted(rows, key=lambda it: -sum(rows[it])):
        yield line(crate, rows[crate])
    yield line("in all", [sum(it) for it in zip(*rows.values())])
    yield f"{clock / 60:.1f} minutes by the clock, {len(os.sched_getaffinity(0))} processors, commit {commit()}"


def main():
    words, every = sys.argv[1:], 1.0
    if words[:1] == ["--every"] and len(words) > 1:
        every, words = float(words[1]), words[2:]
    if words[:1] in (["--help"], ["-h"]):
        sys.exit(__doc__)
    command = ["env", *words] if words else [pathlib.Path(__file__).resolve().parent.parent / ".ci/run"]
    begun = time.monotonic()
    ran = subprocess.Popen(command)
    samples, ended = Samples(ran.pid), threading.Event()

    def watch():
        while not ended.wait(every):
            samples.take()

    watching = threading.Thread(target=watch)
    watching.start()
    status = ran.wait()
    ended.set()
    watching.join()
    print("\n".join(table(samples.minutes(), time.monotonic() - begun)))
    sys.exit(status)


main()

#!/usr/bin/env python3
"""Times the built server.

usage: bench/speed.py PROGRAM

PROGRAM is the server as it was built (`rt run` in crates/dcserve builds it).

First, inputs of distinct lines, a sixteenth, a quarter and the whole of the largest input: directories made in the
root and looked up, a session of each line its own, and many phases. It prints, for each, the three times in seconds,
and how each grew from the one before: four times the bytes.

Then look-ups in trees of 1,000, 10,000 and 60,000 inodes, half of them directories in the root and half of them files
in these. It prints the microseconds of a look-up, which are those that 10,000 look-ups add to the making of the tree.

Then files made and unlinked, and a file given further names: a number of each, then twice and four times as many.

Last, in trees of 1,000, 10,000 and 60,000 inodes, all but 20 of them in the root: the microseconds of a `list` and a `stat` of
a directory of 20 files, and of a `create` with a `rename` of what it made over another file.

Each time is the processor's, and the best of several runs.
"""
import resource
import subprocess
import sys

MOST = 1_048_576
SIZES = [MOST // 16, MOST // 4, MOST]


def wide(number):
    return f"0 mkdir /{number:x}\n0 look /{number:x}\n"


def sessions(number):
    return f"{number % 16} mkdir /{number:x}\n{(number + 1) % 16} look /{number:x}\n"


def phases(number):
    return f"0 mkdir /{number:x}\nsync\n1 look /{number:x}\nsync\n"


def lines_of(pair, size):
    """As many whole pairs of lines as fit into this many bytes."""
    lines, length, number = [], 0, 0
    while True:
        lines.append(pair(number))
        length += len(lines[-1])
        number += 1
        if length > size:
            return "".join(lines[:-1]).encode()


def best(program, text, runs=3):
    times = []
    for _ in range(runs):
        begin = resource.getrusage(resource.RUSAGE_CHILDREN)
        run = subprocess.run([program, "--inodes", "1048576"], input=text, stdout=subprocess.PIPE, check=True)
        end = resource.getrusage(resource.RUSAGE_CHILDREN)
        times.append(end.ru_utime - begin.ru_utime + end.ru_stime - begin.ru_stime)
        if run.stdout.count(b"\n") != text.count(b"\n") - text.count(b"sync\n"):
            sys.exit("a reply is missing")
    return min(times)


LETTERS = "0123456789abcdefghijklmnopqrstuvwxyzABCDEFGHIJKLMNOPQRSTUVWXYZ"


def short(number):
    """A number in few letters."""
    text = ""
    while True:
        number, letter = divmod(number, len(LETTERS))
        text = LETTERS[letter] + text
        if number == 0:
            return text


def look_up_time(program, inodes):
    directories = (inodes - 1) // 2
    made = [f"0 mkdir /{short(n)}\n" for n in range(directories)]
    made += [f"0 create /{short(n)}/f\n" for n in range(inodes - 1 - directories)]
    looks = [f"0 look /{short(n * 7919 % directories)}/f\n" for n in range(10_000)]
    alone = best(program, "".join(made).encode(), runs=9)
    both = best(program, "".join(made + looks).encode(), runs=9)
    return (both - alone) / len(looks) * 1e6


def made_and_unlinked(number):
    makes = [f"0 create /{short(n)}\n" for n in range(number)]
    return "".join(makes + [f"0 unlink /{short(n)}\n" for n in range(number)])


def further_names(number):
    return "0 create /-\n" + "".join(f"0 link /- /{short(n)}\n" for n in range(number))


def call_time(program, inodes, call):
    """The microseconds of a call, by what 1,000 of them add to the making of a tree."""
    made = ["0 mkdir /-\n"] + [f"0 create /-/{short(n)}\n" for n in range(20)]
    made += [f"0 mkdir /{short(n)}\n" for n in range(inodes - 22)]
    alone = best(program, "".join(made).encode())
    both = best(program, "".join(made + [call] * 1_000).encode())
    return (both - alone) / 1_000 * 1e6


CALLS = {
    "list": "0 list /-\n",
    "stat": "0 stat /-\n",
    "create and rename over a file": "0 create /-/-\n0 rename /-/- /-/0\n",
}


def main():
    if len(sys.argv) != 2:
        sys.exit(__doc__)
    for pair in (wide, sessions, phases):
        times = [best(sys.argv[1], lines_of(pair, size)) for size in SIZES]
        shown = " ".join(f"{seconds:.3f}" for seconds in times)
        grown = " ".join(f"{after / before:.1f}" for before, after in zip(times, times[1:]))
        print(f"{pair.__name__}: {shown} s, grown by {grown}")
    for inodes in (1_000, 10_000, 60_000):
        print(f"look-ups among {inodes} inodes: {look_up_time(sys.argv[1], inodes):.2f} us each")
    for what, text_of, numbers in (
        ("made and unlinked", made_and_unlinked, (5_000, 10_000, 20_000)),
        ("further names of a file", further_names, (15_000, 30_000, 60_000)),
    ):
        times = [best(sys.argv[1], text_of(number).encode(), runs=1) for number in numbers]
        shown = ", ".join(f"{number}: {seconds:.3f} s" for number, seconds in zip(numbers, times))
        print(f"{what}: {shown}")
    for what, call in CALLS.items():
        times = [(inodes, call_time(sys.argv[1], inodes, call)) for inodes in (1_000, 10_000, 60_000)]
        print(f"{what}: " + ", ".join(f"{inodes} inodes: {micros:.1f} us" for inodes, micros in times))


main()

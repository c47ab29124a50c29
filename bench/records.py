#!/usr/bin/env python3
"""Tries the checker on the server's replies to random inputs, as they are and altered.

usage: bench/records.py SERVER CHECKER [INPUTS] [SEED]
       bench/records.py --long CHECKER REPLIES [ENTRIES]

SERVER and CHECKER are the programs as they were built (`rt run` in crates/dcserve and crates/dccheck builds them);
INPUTS is how many inputs there are, 1,000 by default.

The sessions of a phase are served in a random order of their calls: the server is given the calls in that order, one a
phase, and its replies are put into the order of the input. So the record is that of a server with threads, and the
checker must say `legal`. Then the record is altered in one place, in each of these ways:

- a reply says something else: `bad reply` of its line;
- every point above that of one change is raised: `bad order` of the first line that was raised;
- the last reply, which is the same on every tree, gets a point below one of an earlier phase: `bad phase` of its line;
- two lines of a session change their places: `bad order` of the first line whose point is below one before it;
- a line is left out, or given to another session: status 5.

It prints how many verdicts there were of each kind, and ends with the first that is wrong. Last come the seconds of the
processor for records of 5,000, 10,000 and 20,000 replies of 16 sessions: directories made in the root, and as many looked
up.

With --long it has one legal record of REPLIES replies judged, of 16 sessions: ENTRIES directories are made in the root (a
tenth as many as replies by default, and at most 100,000), then they are looked up. It prints the seconds of the processor,
the memory at its peak, and both for a reply and beside the size of the two files. docs/MEASUREMENTS.md has figures of
100,000, 1,000,000 and 10,000,000 replies; the files of that many take 400 MB of the folder for temporary files.
"""
import collections
import os
import random
import re
import resource
import subprocess
import sys
import tempfile

NAMES = ["a", "b", "c", "d\\sd", ".", "..", "longer-name"]
ONE_PATH = ["look", "llook", "cd", "readlink", "stat", "list", "mkdir", "create", "unlink", "rmdir"]
TWO_PATHS = ["link", "symlink", "rename"]
MAKES = ["mkdir", "mkdir", "create", "link", "symlink", "rename"]
PHASES, LINES, SESSIONS, LIMIT = 3, 12, 4, 24
# Of long records: how many sessions take turns, and a number without a factor in common with how many names there are, so
# that each is looked up in its turn.
MANY, STRIDE = 16, 7919


def path():
    parts = [random.choice(NAMES) for _ in range(random.choice([1, 1, 2, 2, 3]))]
    text = random.choice(["", "/"]) + "/".join(parts) + random.choice(["", "", "", "/"])
    return random.choice(["/", "\\e"]) if random.random() < 0.03 else text


def command():
    verb = random.choice(random.choice([MAKES, ONE_PATH, TWO_PATHS]))
    return f"{verb} {path()} {path()}" if verb in TWO_PATHS else f"{verb} {path()}"


def phase():
    """For each session its commands."""
    return [[command() for _ in range(random.randrange(LINES // 2))] for _ in range(SESSIONS)]


def turns_of(sessions):
    """The sessions in a random order, each as often as it has commands."""
    turns = [session for session, commands in enumerate(sessions) for _ in commands]
    random.shuffle(turns)
    return turns


def record(server):
    """The text of an input and the replies to it."""
    phases = [phase() for _ in range(PHASES)] + [[[]] * SESSIONS + [["look /"]]]
    orders = [turns_of(sessions) for sessions in phases]
    served, told = [], []
    for sessions, order in zip(phases, orders):
        queues = [iter(commands) for commands in sessions]
        served += [f"{session} {next(queues[session])}" for session in order]
        # In the input the sessions stand mixed in another order.
        queues = [iter(commands) for commands in sessions]
        told += [f"{session} {next(queues[session])}" for session in turns_of(sessions)] + ["sync"]
    text = "\nsync\n".join(served) + "\n"
    run = subprocess.run([server, f"--inodes={LIMIT}"], input=text.encode(), stdout=subprocess.PIPE, check=True)
    lines = iter(run.stdout.decode().splitlines())
    replies = []
    for order in orders:
        taken = [(session, next(lines)) for session in order]
        replies += [line for _, line in sorted(taken, key=lambda pair: pair[0])]
    return "\n".join(told) + "\n", replies


def point(line):
    return int(line.rsplit("@", 1)[1])


def session(line):
    return line.split(" ", 1)[0]


def falling(replies):
    """The first line whose point is below an earlier one of its session."""
    latest = {}
    for number, line in enumerate(replies, 1):
        if point(line) < latest.get(session(line), 0):
            return number
        latest[session(line)] = point(line)
    return None


def another_reply(replies, commands):
    # What `cd` found is where its session's later paths start, so it is left as it is.
    places = [i for i, line in enumerate(commands) if line.split(" ")[1] != "cd"]
    if not places:
        return None
    i = random.choice(places)
    words = replies[i].split(" ")
    others = [["is", "77", "dir"], ["ok", "77"], ["ok"], ["no", "12"], ["text", "x"], ["names", "zz"], ["stat", "77", "file", "1"]]
    answer = random.choice([other for other in others if other != words[1:-1]])
    line = " ".join([words[0], *answer, words[-1]])
    return replies[:i] + [line] + replies[i + 1 :], f"bad reply {i + 1}: "


def points_raised(replies, commands):
    above = random.randrange(max(map(point, replies), default=0) + 1)
    raised = [re.sub(r"@\d+$", f"@{point(line) + 1}", line) if point(line) > above else line for line in replies]
    first = next((i for i, line in enumerate(replies, 1) if point(line) > above), None)
    return None if first is None else (raised, f"bad order {first}: ")


def before_a_phase(replies, commands):
    latest = max(map(point, replies[:-1]), default=0)
    if latest == 0:
        return None
    line = re.sub(r"@\d+$", f"@{random.randrange(latest)}", replies[-1])
    return [*replies[:-1], line], f"bad phase {len(replies)}: "


def places_changed(replies, commands):
    whose = session(random.choice(replies)) if replies else ""
    places = [i for i, line in enumerate(replies) if session(line) == whose]
    if len(places) < 2:
        return None
    i, j = random.sample(places, 2)
    changed = replies[:]
    changed[i], changed[j] = replies[j], replies[i]
    line = falling(changed)
    return None if line is None else (changed, f"bad order {line}: ")


def left_out(replies, commands):
    i = random.randrange(len(replies) or 1)
    return (replies[:i] + replies[i + 1 :], "") if replies else None


def of_another_session(replies, commands):
    if not replies:
        return None
    i = random.randrange(len(replies))
    return replies[:i] + [re.sub(r"^\d+", "9", replies[i])] + replies[i + 1 :], ""


ALTERED = {
    "another reply": (another_reply, 1),
    "points raised": (points_raised, 1),
    "before a phase": (before_a_phase, 1),
    "places changed": (places_changed, 1),
    "left out": (left_out, 5),
    "of another session": (of_another_session, 5),
}


def commands_of(text):
    """The commands in the order of their replies."""
    phases = [block.splitlines() for block in re.split(r"^sync\n", text, flags=re.M)]
    return [line for lines in phases for line in sorted(lines, key=lambda line: int(session(line)))]


def judge(checker, folder, text, replies, limit):
    for name, content in (("commands", text), ("replies", "".join(line + "\n" for line in replies))):
        with open(os.path.join(folder, name), "w") as file:
            file.write(content)
    paths = [os.path.join(folder, name) for name in ("commands", "replies")]
    run = subprocess.run([checker, f"--inodes={limit}", *paths], stdout=subprocess.PIPE, stderr=subprocess.PIPE)
    return run.returncode, run.stdout.decode()


def expect(checker, folder, text, replies, what, status, begin, limit=LIMIT):
    found = judge(checker, folder, text, replies, limit)
    if found[0] != status or not found[1].startswith(begin):
        sys.exit(f"{what}: not {status} {begin!r} but {found}\n{text}\n" + "\n".join(replies))


def long_record(number, entries):
    """The lines of a record, session after session: a command and its reply."""
    for whose in range(MANY):
        for i in range(whose, entries, MANY):
            yield f"{whose} mkdir /{i:x}\n", f"{whose} ok {i + 2} @{i}\n"
        for i in range(whose, number - entries, MANY):
            n = i * STRIDE % entries
            yield f"{whose} look /{n:x}\n", f"{whose} is {n + 2} dir @{entries}\n"


def judge_long(checker, folder, number, entries):
    """The seconds of the processor and the bytes at the peak, as the most of any child, and the size of the files."""
    paths = [os.path.join(folder, name) for name in ("commands", "replies")]
    with open(paths[0], "w") as commands, open(paths[1], "w") as replies:
        for command, reply in long_record(number, entries):
            commands.write(command)
            replies.write(reply)
    begin = resource.getrusage(resource.RUSAGE_CHILDREN)
    # The root is an inode too.
    run = subprocess.run([checker, f"--inodes={entries + 1}", *paths], stdout=subprocess.PIPE, stderr=subprocess.PIPE)
    end = resource.getrusage(resource.RUSAGE_CHILDREN)
    if (run.returncode, run.stdout) != (0, b"legal\n"):
        sys.exit(f"{number} replies: not legal but {run.returncode} {run.stdout!r} {run.stderr!r}")
    seconds = end.ru_utime - begin.ru_utime + end.ru_stime - begin.ru_stime
    return seconds, end.ru_maxrss * 1024, sum(map(os.path.getsize, paths))


def tell_long(checker, number, entries):
    with tempfile.TemporaryDirectory() as folder:
        seconds, peak, size = judge_long(checker, folder, number, entries)
    print(
        f"{number} replies over {entries} entries: {seconds:.2f} s, {seconds / number * 1e6:.2f} us a reply; "
        f"{peak / 1e6:.0f} MB, {peak / number:.0f} bytes a reply, {peak / size:.1f} times the {size / 1e6:.1f} MB of the files"
    )


def main():
    if len(sys.argv) not in (3, 4, 5) or sys.argv[1] == "--long" and len(sys.argv) == 3:
        sys.exit(__doc__)
    if sys.argv[1] == "--long":
        number = int(sys.argv[3])
        return tell_long(sys.argv[2], number, int(sys.argv[4]) if len(sys.argv) > 4 else max(1, min(number // 10, 100_000)))
    server, checker = sys.argv[1:3]
    random.seed(int(sys.argv[4]) if len(sys.argv) > 4 else 1)
    counts = collections.Counter()
    with tempfile.TemporaryDirectory() as folder:
        for _ in range(int(sys.argv[3]) if len(sys.argv) > 3 else 1_000):
            text, replies = record(server)
            expect(checker, folder, text, replies, "legal", 0, "legal\n")
            counts["legal"] += 1
            counts["of these with a change"] += any(point(line) > 0 for line in replies)
            for what, (alter, status) in ALTERED.items():
                altered = alter(replies, commands_of(text))
                if altered is not None:
                    expect(checker, folder, text, altered[0], what, status, altered[1])
                    counts[what] += 1
        for what, count in counts.items():
            print(f"{what}: {count}")
        for number in (5_000, 10_000, 20_000):
            print(f"{number} replies: {judge_long(checker, folder, number, number // 2)[0]:.2f} s")


main()

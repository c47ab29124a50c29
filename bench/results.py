"""bench/results.txt: its sections, each behind a line with its title but the first, and the tables in them."""

import pathlib
import re
import subprocess

FILE = pathlib.Path(__file__).resolve().parent / "results.txt"
MARK = "==== "
# What measuring writes.
WRITTEN = ("bench/results.txt", "docs/lookups.svg", "docs/holds.svg", "docs/MEASUREMENTS.md", "README.md")


def first_line(*words):
    """What a program prints first, or nothing if there is none."""
    try:
        ran = subprocess.run(words, stdout=subprocess.PIPE, stderr=subprocess.DEVNULL, text=True, cwd=FILE.parent)
        return ran.stdout.split("\n")[0]
    except OSError:
        return ""


def commit():
    """The commit that is checked out, and whether files differ from it, but for those that measuring writes."""
    others = first_line("git", "status", "--porcelain", "-uno", "--", "..", *(f":!../{name}" for name in WRITTEN))
    return (first_line("git", "rev-parse", "--short=12", "HEAD") or "unknown") + (" with changes" if others else "")


def sections():
    """The sections by title. The first, what bench/compare printed with nothing beside it, has none."""
    parts = re.split(rf"^{MARK}(.*)\n", FILE.read_text(), flags=re.M)
    return dict(zip(["", *parts[1::2]], parts[::2]))


def write(told):
    """Puts sections into the file, in the place of those of the same titles."""
    texts = ((f"{MARK}{title}\n\n" if title else "") + text.strip("\n") for title, text in {**sections(), **told}.items())
    FILE.write_text("\n\n".join(texts) + "\n")


def blocks(lines):
    """Where the indented blocks of some lines begin and end."""
    begin = None
    for at, line in enumerate([*lines, ""]):
        if line.startswith("    ") and begin is None:
            begin = at
        elif not line.startswith("    ") and begin is not None:
            yield begin, at
            begin = None


def cells(line):
    return re.split(r"  +", line.strip())


def key(line):
    """What a block is known by: the first cell of its head, up to a colon."""
    return cells(line)[0].split(":")[0]


class Tables:
    """The blocks of some text, by what they are known by, in their order."""

    def __init__(self, text):
        self.lines, self.found = text.splitlines(), {}
        for begin, end in blocks(self.lines):
            self.found.setdefault(key(self.lines[begin]), []).append(self.lines[begin:end])

    def table(self, name, at=0):
        """The rows of a table by their first cell, its head by the empty text."""
        head, *rows = self.found[name][at]
        return {"": cells(head)[1:], **{cells(row)[0]: cells(row)[1:] for row in rows}}


def middle(cell):
    """The median of a ratio that has its quartiles behind it."""
    return cell.split(" ")[0]

#!/usr/bin/env python3
"""Reads directories that change meanwhile, from other places and with little room, and uses their names beside that, a line
each: the same on any file system.

usage: examples/fuse/listed.py FOLDER
"""

import collections
import ctypes
import os
import random
import signal
import struct
import sys

NAMES, FEW, LITTLE, TURNS = 3000, 100, 300, 500
LONGEST = 255
KINDS = {4: "directory", 8: "file", 10: "link"}
LIBC = ctypes.CDLL(None, use_errno=True)


class Entry(ctypes.Structure):
    _fields_ = [("number", ctypes.c_uint64), ("behind", ctypes.c_int64), ("length", ctypes.c_uint16),
                ("kind", ctypes.c_uint8), ("name", ctypes.c_char * 256)]


LIBC.opendir.restype = ctypes.c_void_p
LIBC.readdir.restype = ctypes.POINTER(Entry)
LIBC.telldir.restype = ctypes.c_long
for call in (LIBC.readdir, LIBC.telldir, LIBC.rewinddir, LIBC.closedir):
    call.argtypes = [ctypes.c_void_p]
LIBC.seekdir.argtypes = [ctypes.c_void_p, ctypes.c_long]


class Directory:
    """An open directory of the C library."""

    def __init__(self, path):
        self.at = LIBC.opendir(os.fsencode(path))

    def read(self):
        """The next entry: name, number and kind; None behind the last."""
        entry = LIBC.readdir(self.at)
        return (os.fsdecode(entry.contents.name), entry.contents.number, entry.contents.kind) if entry else None

    def rest(self):
        return list(iter(self.read, None))

    def tell(self):
        return LIBC.telldir(self.at)

    def seek(self, place):
        LIBC.seekdir(self.at, place)

    def rewind(self):
        LIBC.rewinddir(self.at)

    def close(self):
        LIBC.closedir(self.at)


def tell(what, *of):
    print(what, *of)


def make(path):
    open(path, "w").close()


def once(names, of):
    """Whether each of these was told once."""
    counts = collections.Counter(names)
    return all(counts[name] == 1 for name in of)


def without_dots(entries):
    return [name for name, _, _ in entries if name not in (".", "..")]


def kinds():
    os.mkdir("kinds")
    os.chdir("kinds")
    for i in range(NAMES):
        os.mkdir(f"{i}") if i % 3 == 0 else make(f"{i}") if i % 3 == 1 else os.symlink("text", f"{i}")
    os.link("1", "other name")
    make("l" * LONGEST)
    directory = Directory(".")
    entries = directory.rest()
    tell("all once", once([name for name, _, _ in entries], [".", "..", *os.listdir(".")]), len(entries))
    tell("numbers", all(number == os.lstat(name).st_ino for name, number, _ in entries))
    tell("kinds", sorted(collections.Counter(KINDS.get(kind) for _, _, kind in entries).items()))
    directory.rewind()
    tell("again", directory.rest() == entries, directory.read())
    directory.close()
    os.chdir("..")


def places():
    """Each place that is told leads back to where it was."""
    directory = Directory("kinds")
    told = []
    for entry in iter(directory.read, None):
        told.append((directory.tell(), entry[0]))
    tell("places", len({place for place, _ in told}) == len(told))
    chosen = random.Random(1).sample(range(len(told) - 1), FEW)
    right = 0
    for i in chosen:
        directory.seek(told[i][0])
        right += directory.read()[0] == told[i + 1][1]
    tell("led back to", right)
    directory.seek(told[-1][0])
    tell("behind the last", directory.read())
    directory.seek(told[FEW][0])
    tell("and on from there", without_dots(directory.rest()) == [name for _, name in told[FEW + 1:]])
    directory.close()


def changes():
    """Names that come and go between pages."""
    os.mkdir("changes")
    for i in range(NAMES):
        make(f"changes/{i}")
    stay = {f"{i}" for i in range(NAMES) if i % 3}
    directory = Directory("changes")
    told = without_dots([directory.read() for _ in range(FEW)])
    for name in told:
        os.unlink(f"changes/{name}")
    for i in range(0, NAMES, 3):
        if f"{i}" not in told:
            os.unlink(f"changes/{i}")
    for i in range(NAMES):
        make(f"changes/new {i}")
    told += without_dots(directory.rest())
    tell("those that stayed, once", once(told, stay))
    tell("none twice", once(told, told))
    for name in os.listdir("changes"):
        os.unlink(f"changes/{name}")
    directory.rewind()
    tell("emptied", sorted(name for name, _, _ in directory.rest()))
    directory.close()


def removed():
    """Back to a place whose name has gone since: what stood behind it is told."""
    os.mkdir("removed")
    for i in range(NAMES):
        make(f"removed/{i}")
    directory = Directory("removed")
    before = [directory.read()[0] for _ in range(FEW)]
    place = directory.tell()
    behind = without_dots(directory.rest())
    for name in before[-FEW // 2:]:
        os.unlink(f"removed/{name}")
    directory.seek(place)
    tell("none left out", once(without_dots(directory.rest()), behind))
    directory.close()


def in_turn():
    """Each name is removed as soon as it is told."""
    os.mkdir("turn")
    for i in range(NAMES):
        make(f"turn/{i}")
    directory = Directory("turn")
    count = 0
    for name, _, _ in iter(directory.read, None):
        if name not in (".", ".."):
            os.unlink(f"turn/{name}")
            count += 1
    tell("removed in turn", count, os.listdir("turn"))
    directory.close()


def little():
    """By the kernel's own call, which has room for some names at a time, with questions about each in between."""
    file = os.open("kinds", os.O_RDONLY)
    room, told, sizes = ctypes.create_string_buffer(LITTLE), [], set()
    number = {"x86_64": 217, "aarch64": 61}.get(os.uname().machine)
    while number:
        size = LIBC.syscall(number, file, room, LITTLE)
        if size <= 0:
            break
        at = 0
        while at < size:
            length = struct.unpack_from("H", room.raw, at + 16)[0]
            name = room.raw[at + 19:at + length].split(b"\0")[0]
            at += length
            told.append(os.fsdecode(name))
            sizes.add(os.lstat(name, dir_fd=file).st_mode >> 12)
    tell("with little room", once(told, os.listdir("kinds")) or not number)
    os.close(file)


def fresh():
    """A listing with attributes is right also of what has just changed."""
    os.mkdir("fresh")
    for i in range(FEW):
        make(f"fresh/{i}")
    wrong = 0
    for turn in range(FEW):
        with open(f"fresh/{turn}", "w") as file:
            file.write("b" * turn)
        os.replace(f"fresh/{turn}", f"fresh/{FEW - 1}") if turn == FEW // 2 else os.chmod(f"fresh/{turn}", 0o600)
        for entry in os.scandir("fresh"):
            told = entry.stat(follow_symlinks=False)
            with open(entry.path) as file:
                now = os.fstat(file.fileno())
            wrong += (told.st_ino, told.st_size, told.st_mode) != (now.st_ino, now.st_size, now.st_mode)
    tell("attributes that differ", wrong)


def list_for_ever(path):
    while True:
        for entry in os.scandir(path):
            try:
                entry.stat(follow_symlinks=False)
            except FileNotFoundError:
                pass


def in_place(turn):
    """Makes a file in place of another, links it, and changes its mode and size. How often it was seen otherwise."""
    text, mode = f"{turn}", 0o600 if turn % 2 else 0o644
    with open("beside/new", "w") as file:
        file.write(text)
    number = os.stat("beside/new").st_ino
    os.replace("beside/new", "beside/name")
    seen = [os.stat("beside/name").st_ino == number, not os.path.exists("beside/new")]
    with open("beside/name") as file:
        seen.append(file.read() == text)
    os.link("beside/name", "beside/link")
    seen.append(os.stat("beside/name").st_nlink == 2)
    os.unlink("beside/link")
    os.chmod("beside/name", mode)
    with open("beside/name", "a") as file:
        file.write("more")
    told = os.stat("beside/name")
    seen.append((told.st_nlink, told.st_mode & 0o777, told.st_size) == (1, mode, len(text) + 4))
    return seen.count(False)


def beside():
    """What the kernel keeps of a listing is right while another process lists all the time."""
    os.mkdir("beside")
    for i in range(FEW):
        make(f"beside/{i}")
    child = os.fork()
    if child == 0:
        list_for_ever("beside")
    wrong = sum(in_place(turn) for turn in range(TURNS))
    os.kill(child, signal.SIGKILL)
    os.waitpid(child, 0)
    tell("seen otherwise beside listings", wrong)


def main():
    if len(sys.argv) != 2 or not os.path.isdir(sys.argv[1]):
        print(__doc__.split("\n\n")[1], file=sys.stderr)
        return 2
    os.chdir(sys.argv[1])
    for part in (kinds, places, changes, removed, in_turn, little, fresh, beside):
        part()
    return 0


if __name__ == "__main__":
    sys.exit(main())

#!/usr/bin/env python3
"""What nobody may do with files of root's and with its own, and what root may, a line each: the same on any file system
that tests owners and modes. Is run as root.

usage: examples/fuse/leave.py FOLDER
"""

import errno
import os
import shutil
import stat
import sys

NOBODY, GROUP, OTHER_GROUP = 65534, 4242, 4343
FOLDERS = {"closed": 0o700, "open": 0o755, "search": 0o711, "read": 0o744, "shared": 0o777, "second": 0o777,
           "sticky": 0o1777, "closed/below": 0o777, "shared/heavy": 0o755, "shared/empty": 0o755, "sticky/empty": 0o755,
           "group": 0o770, "unsearched": 0o766}
# Of nobody or of root, with a group: each with a mode.
FILES = {"closed/file": 0o666, "closed/below/file": 0o666, "search/file": 0o644, "read/file": 0o644, "open/r": 0o644,
         "open/w": 0o622, "open/rw": 0o666, "open/none": 0o600, "open/suid": 0o6777, "open/program": 0o711,
         "open/no program": 0o744, "shared/r": 0o644, "shared/s": 0o644, "sticky/root": 0o666, "group/file": 0o644,
         "unsearched/file": 0o666}
OWN = {"open/own": 0o600, "open/refused own": 0o077, "sticky/own": 0o600, "shared/own": 0o644}
OF_GROUP = {"open/of group": 0o640, "open/refused group": 0o604}


def ended(call, *words, **named):
    """The name of the error of a call, or what it gives."""
    try:
        return call(*words, **named)
    except OSError as error:
        return errno.errorcode[error.errno]


def make():
    for name, mode in FOLDERS.items():
        os.mkdir(name)
        os.chmod(name, mode)
    for name, mode in {**FILES, **OWN, **OF_GROUP}.items():
        with open(name, "w") as file:
            file.write("bytes")
        os.chown(name, NOBODY if name in OWN else 0, GROUP if name in OF_GROUP else 0)
        os.chmod(name, mode)
    for name in ("open/program", "open/no program"):
        shutil.copyfile(shutil.which("true"), name)
    os.chown("group", 0, GROUP)
    # The kernel has seen all of them.
    for top, _, names in os.walk("."):
        for name in names:
            os.lstat(f"{top}/{name}")


def opened(name, flags):
    file = os.open(name, flags, 0o644)
    os.close(file)
    return "opened"


def executed(name):
    child = os.fork()
    if child == 0:
        try:
            os.execv(name, ["true"])
        except OSError as error:
            os._exit(error.errno)
    status = os.waitstatus_to_exitcode(os.waitpid(child, 0)[1])
    return errno.errorcode.get(status, status)


def write_to(name):
    with open(name, "a") as file:
        file.write("more")
    return mode_of(name)


def cut_open(name):
    """A file that is open for writing is cut, whatever its mode has become."""
    file = os.open(name, os.O_RDWR | os.O_CREAT, 0)
    os.ftruncate(file, 3)
    os.close(file)
    return ended(os.truncate, name, 1), os.stat(name).st_size


def mode_of(name):
    return oct(stat.S_IMODE(os.stat(name).st_mode))


def walks(tell):
    for name in ("closed/file", "closed/missing", "closed/below/file", "open/missing", "search/file", "read/file",
                 "unsearched/file", "group/file", "open/r/file"):
        tell("stat", name, isinstance(ended(os.stat, name), os.stat_result) or ended(os.stat, name))
    for name in ("closed", "search", "read", "open", "group"):
        tell("list", name, type(ended(os.listdir, name)) is list or ended(os.listdir, name))
        tell("enter", name, ended(os.chdir, name))
        os.fchdir(tell.top)


def opens(tell):
    ways = {"read": os.O_RDONLY, "write": os.O_WRONLY, "both": os.O_RDWR, "cut": os.O_RDONLY | os.O_TRUNC,
            "make": os.O_WRONLY | os.O_CREAT}
    for name in ("r", "w", "rw", "none", "own", "refused own", "of group", "refused group", "new"):
        tell("open", name, *(ended(opened, f"open/{name}", flags) for flags in ways.values()))
        tell("access", name, *(ended(os.access, f"open/{name}", mask) for mask in (0, 4, 2, 1, 7)))
    tell("access", "folders", *(os.access(name, mask) for name in ("closed", "search", "read") for mask in (4, 2, 1)))
    tell("exec", executed("open/program"), executed("open/no program"), executed("open/r"))


def changes(tell):
    for folder in ("closed", "open", "unsearched", "group", "shared"):
        tell("make in", folder, ended(opened, f"{folder}/new", os.O_WRONLY | os.O_CREAT), ended(os.mkdir, f"{folder}/d"),
             ended(os.symlink, "text", f"{folder}/l"), ended(os.link, "shared/own", f"{folder}/h"),
             ended(os.mkdir, f"{folder}/file"))
        tell("take from", folder, ended(os.unlink, f"{folder}/h"), ended(os.unlink, f"{folder}/r"),
             ended(os.rmdir, f"{folder}/d"), ended(os.unlink, f"{folder}/missing"))
    tell("rename out", ended(os.rename, "open/r", "shared/moved"))
    tell("rename in", ended(os.rename, "shared/s", "open/moved"), ended(os.rename, "shared/s", "closed/moved"))
    tell("rename", ended(os.rename, "shared/s", "second/s"), ended(os.rename, "shared/missing", "second/t"))
    tell("rename a directory", ended(os.rename, "shared/heavy", "second/heavy"),
         ended(os.rename, "shared/heavy", "shared/light"), ended(os.rmdir, "shared/empty"))
    tell("sticky", ended(os.unlink, "sticky/root"), ended(os.rename, "sticky/root", "sticky/other"),
         ended(os.rename, "sticky/own", "sticky/root"), ended(os.rename, "sticky/own", "second/own"),
         ended(os.rename, "second/own", "sticky/own"), ended(os.unlink, "sticky/own"), ended(os.rmdir, "sticky/empty"),
         ended(os.unlink, "sticky/missing"))


def attributes(tell):
    tell("chmod", *(ended(os.chmod, "open/rw", mode) for mode in (0o600, 0o666)), ended(os.chmod, "open/own", 0o640),
         mode_of("open/own"))
    tell("chown", ended(os.chown, "open/rw", NOBODY, -1), ended(os.chown, "open/own", 0, -1),
         ended(os.chown, "open/own", NOBODY, -1))
    tell("chgrp", ended(os.chown, "open/own", -1, OTHER_GROUP), ended(os.chown, "open/own", -1, GROUP))
    tell("of a group", ended(os.chmod, "open/own", 0o2770), mode_of("open/own"))
    tell("of another", ended(os.chmod, "shared/own", 0o2770), mode_of("shared/own"))
    for name in ("open/r", "open/rw", "open/own"):
        tell("times", name, ended(os.utime, name), ended(os.utime, name, (1, 2)))
        tell("cut", name, ended(os.truncate, name, 2))
    tell("cut what is open", cut_open("shared/no mode"))
    tell("written", write_to("open/suid"))


def as_root(tell):
    tell("root reads", *(ended(opened, name, os.O_RDWR) for name in ("closed/file", "open/refused own", "open/none")))
    tell("root executes", executed("open/program"), executed("open/r"), os.access("open/r", 1))
    tell("root in sticky", ended(os.unlink, "sticky/root"), ended(os.chmod, "shared/own", 0o4755), mode_of("shared/own"))
    tell("root gives", ended(os.chown, "shared/own", 0, 0), mode_of("shared/own"))


class Teller:
    def __init__(self):
        self.top = os.open(".", os.O_RDONLY)

    def __call__(self, *words):
        print(*words, flush=True)


def as_nobody(tell):
    os.setgroups([GROUP])
    os.setgid(NOBODY)
    os.setuid(NOBODY)
    for part in (walks, opens, changes, attributes):
        part(tell)


def main():
    if len(sys.argv) != 2 or not os.path.isdir(sys.argv[1]) or os.getuid():
        print(__doc__.split("\n\n")[1], file=sys.stderr)
        return 2
    os.umask(0o022)
    os.chdir(sys.argv[1])
    make()
    tell = Teller()
    child = os.fork()
    if child == 0:
        as_nobody(tell)
        return 0
    if os.waitstatus_to_exitcode(os.waitpid(child, 0)[1]):
        return 1
    as_root(tell)
    return 0


if __name__ == "__main__":
    sys.exit(main())

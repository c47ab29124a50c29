#!/usr/bin/env python3
"""What programs seldom do to files and directories, and what becomes of it, a line each: the same on any file system.

usage: examples/fuse/odd.py FOLDER

Files without a name, which stay open: made so, unlinked, renamed over, and in a directory that is gone. Sparse files of a
terabyte. Directories that are deeper than a path may be long, renames and links between these. Tells of no number, time or
size that two file systems needn't have alike.
"""

import ctypes
import errno
import os
import shutil
import sys
import tempfile

TERABYTE, FAR, MANY = 1 << 40, 10 ** 12, 10 ** 6
DEEP, NAME = 600, "directory_"
EXCHANGE = 2


def tell(what, *of):
    print(what, *of)


def refused(call, *words):
    """The name of the error of a call, or what it gives."""
    try:
        return call(*words)
    except OSError as error:
        return errno.errorcode[error.errno]


def use(what, file):
    """All that can be asked of an open file, and done to it."""
    os.fchmod(file, 0o640)
    os.utime(file, (1, 2))
    os.fchown(file, -1, -1)
    os.pwrite(file, b"bytes", 3)
    os.ftruncate(file, 7)
    os.fsync(file)
    told = os.fstat(file)
    tell(what, oct(told.st_mode), told.st_nlink, told.st_size, int(told.st_atime), os.pread(file, 9, 0))


def nameless():
    with tempfile.TemporaryFile(dir=".") as file:
        use("a temporary file", file.fileno())
    with tempfile.NamedTemporaryFile(dir=".") as file:
        use("a temporary file with a name", file.fileno())
    file = os.open("taken", os.O_RDWR | os.O_CREAT)
    os.link("taken", "other")
    os.unlink("taken")
    use("one name less", file)
    os.unlink("other")
    use("no name", file)
    os.close(file)
    file = os.open("over", os.O_RDWR | os.O_CREAT)
    open("by", "w").close()
    os.rename("by", "over")
    use("renamed over", file)
    os.close(file)
    os.unlink("over")
    os.mkdir("gone")
    file = os.open("gone/file", os.O_RDWR | os.O_CREAT)
    directory = os.open("gone", os.O_RDONLY)
    os.unlink("gone/file")
    os.rmdir("gone")
    use("in a directory that is gone", file)
    tell("that directory", os.fstat(directory).st_nlink == 0, refused(os.stat, "gone"))
    tell("a file in it", refused(lambda: os.open("new", os.O_RDWR | os.O_CREAT, dir_fd=directory)))
    os.close(file)
    os.close(directory)


def sparse():
    file = os.open("sparse", os.O_RDWR | os.O_CREAT)
    os.ftruncate(file, TERABYTE)
    told = os.fstat(file)
    tell("a terabyte", told.st_size, told.st_blocks < 100, os.pread(file, 4, TERABYTE - 4), os.pread(file, 4, TERABYTE))
    bytes = b"0123456789" * (MANY // 10)
    at = 0
    while at < MANY:
        at += os.pwrite(file, bytes[at:], FAR + at)
    blocks = os.fstat(file).st_blocks * 512
    tell("far out", os.pread(file, MANY, FAR) == bytes, os.pread(file, 3, FAR - 3), MANY <= blocks < 2 * MANY)
    os.ftruncate(file, FAR + 5)
    os.ftruncate(file, TERABYTE)
    tell("cut and longer again", os.pread(file, 9, FAR), os.fstat(file).st_blocks * 512 < MANY)
    os.ftruncate(file, 0)
    tell("cut to nothing", os.fstat(file).st_blocks, os.fstat(file).st_size)
    os.close(file)
    os.unlink("sparse")


def exchange(old, new):
    ends = ctypes.CDLL(None, use_errno=True).renameat2(-100, os.fsencode(old), -100, os.fsencode(new), EXCHANGE)
    return errno.errorcode[ctypes.get_errno()] if ends else None


def deep():
    """Longer than a path may be: each directory is asked for by the one above it."""
    top = os.getcwd()
    for _ in range(DEEP):
        os.mkdir(NAME)
        os.chdir(NAME)
    open("file", "w").close()
    os.mkdir("side")
    os.rename("file", "../up")
    os.link("../up", "side/down")
    os.mkdir("../across")
    os.rename("side", "../across/side")
    open("../across/side/last", "w").close()
    tell("deep", sorted(os.listdir("..")), sorted(os.listdir("../across/side")), os.stat("../up").st_nlink)
    os.chdir(top)
    tell("too long", refused(os.stat, "/".join([NAME] * DEEP)))
    shutil.rmtree(NAME) if sys.getrecursionlimit() > 3 * DEEP else os.system(f"rm -rf {NAME}")


def moved():
    """Directories that change places, and then files in them that are moved and linked."""
    for name in ("a", "a/b", "c", "c/d"):
        os.mkdir(name)
    open("a/b/one", "w").close()
    open("c/d/two", "w").close()
    tell("exchange", exchange("a/b", "c/d"), os.listdir("a/b"), os.listdir("c/d"))
    os.rename("c/d/one", "a/b/three")
    os.link("a/b/two", "c/d/four")
    tell("moved", sorted(os.listdir("a/b")), os.listdir("c/d"), os.stat("c/d/four").st_nlink)
    tell("beneath itself", refused(os.rename, "a", "a/b/a"), exchange("a", "a/b"), exchange("a", "missing"))
    os.rename("a/b", "b")
    os.rename("b/three", "c/d/three")
    tell("up", sorted(os.listdir(".")), sorted(os.listdir("c/d")))
    os.symlink("../b/two", "c/link")
    os.link("c/link", "other", follow_symlinks=False)
    tell("links", os.readlink("c/link"), os.readlink("other"), os.lstat("other").st_nlink)
    for name in ("a", "b", "c", "other"):
        shutil.rmtree(name) if os.path.isdir(name) else os.unlink(name)


def main():
    if len(sys.argv) != 2 or not os.path.isdir(sys.argv[1]):
        print(__doc__.split("\n\n")[1], file=sys.stderr)
        return 2
    sys.setrecursionlimit(10_000)
    os.chdir(sys.argv[1])
    nameless()
    sparse()
    deep()
    moved()
    tell("left", os.listdir("."))
    return 0


if __name__ == "__main__":
    sys.exit(main())

#!/usr/bin/env python3
"""Makes lines of the server, and the replies that are due, of the path calls that a program made of the kernel.

usage: bench/traces.py TRACE FOLDER LINES REPLIES

TRACE is written by `strace -f -y -s 4096 -e trace=%file,%process -o TRACE PROGRAM ..`; without %process a new process
is taken to stand in the directory of the first one, and without -y a call on a directory's descriptor is left out. FOLDER was empty as the trace began: it is the server's root, and calls
of what lies outside it are left out. LINES and REPLIES are written: one command for each call that has one, of session 0,
and the reply to each.

Whether a call succeeds, by which number it is refused, a link's text and a kind where the kernel tells it are the
kernel's own. The server's inode numbers and the count of changes follow from the calls before: 2 for the first inode
made, and one more for each further one. A call with which the names so made don't agree ends the script with 1.
"""
import os.path
import re
import sys

ERRORS = {"EPERM": 1, "ENOENT": 2, "EEXIST": 17, "ENOTDIR": 20, "EISDIR": 21, "EINVAL": 22, "ENOTEMPTY": 39, "ELOOP": 40}
KINDS = {"S_IFDIR": "dir", "S_IFREG": "file", "S_IFLNK": "link"}
LINE = re.compile(r"^(\d+) +(\w+)\((.*)\) += (-?\d+|\?)(?: (\w+))?")
UNFINISHED = re.compile(r"^(\d+) +(.*) <unfinished \.\.\.>$")
RESUMED = re.compile(r"^(\d+) +<\.\.\. \w+ resumed>(.*)$")
TEXT = re.compile(r'"((?:[^"\\]|\\.)*)"')
ESCAPES = {"n": 10, "t": 9, "r": 13, "f": 12, "v": 11}
LOOKS = {"access": False, "faccessat": False, "faccessat2": False, "stat": False, "newfstatat": False, "lstat": True,
         "chmod": False, "fchmodat": False, "utimensat": False, "execve": False, "truncate": False, "statfs": False}


def unescape(text):
    """The bytes that strace wrote as this text."""
    def byte(match):
        code = match.group(1)
        return bytes([ESCAPES[code] if code in ESCAPES else int(code, 8) if code[0].isdigit() else ord(code)])
    return re.sub(rb"\\([0-7]{1,3}|.)", lambda m: byte(re.match("(.*)", m.group(1).decode(), re.S)), text.encode())


class Calls:
    """The calls of a trace in the order in which they ended: process, name, arguments, result, the error's name."""

    def __init__(self, lines):
        self.begun = {}
        self.lines = lines

    def __iter__(self):
        for line in self.lines:
            line = line.rstrip("\n")
            unfinished, resumed = UNFINISHED.match(line), RESUMED.match(line)
            if unfinished:
                self.begun[unfinished.group(1)] = unfinished.group(0).split(" ", 1)[1][: -len(" <unfinished ...>")]
                continue
            if resumed:
                line = f"{resumed.group(1)} {self.begun.pop(resumed.group(1), '').strip()}{resumed.group(2)}"
            found = LINE.match(line)
            if found:
                yield found.groups()


class Names:
    """The names below the folder, by the calls so far."""

    def __init__(self):
        self.entries = {1: {}}
        self.kinds = {1: "dir"}
        self.texts = {}
        self.parents = {1: 1}
        self.next = 2

    def make(self, directory, name, kind, text=None):
        number, self.next = self.next, self.next + 1
        self.kinds[number] = kind
        if kind == "dir":
            self.entries[number] = {}
            self.parents[number] = directory
        if text is not None:
            self.texts[number] = text
        self.entries[directory][name] = number
        return number

    def walk(self, path, keeps_last, left=40):
        """The directory of the last part, that part, and where it leads; None for what isn't there."""
        at, parts, place = 1, [part for part in path.split(b"/") if part and part != b"."], (1, None)
        while parts:
            part = parts.pop(0)
            if self.kinds.get(at) != "dir":
                return None, None, None
            found = self.parents[at] if part == b".." else self.entries[at].get(part)
            place = (at, part)
            if found is not None and self.kinds[found] == "link" and (parts or not keeps_last) and left:
                left, text = left - 1, self.texts[found]
                parts = [piece for piece in text.split(b"/") if piece and piece != b"."] + parts
                at = 1 if text.startswith(b"/") else at
                continue
            if found is None:
                return (*place, None) if not parts else (None, None, None)
            at = found
        return (*place, at)


class Script:
    """The lines and the replies that were made of calls."""

    def __init__(self, folder):
        self.folder = folder.encode()
        self.names = Names()
        self.clock = 0
        self.lines, self.replies = [], []
        self.directories = {}
        self.first = None

    def path(self, process, text, descriptor=None):
        """A path as the server has it, or None if it leads out of the folder."""
        text = unescape(text)
        start = self.directories.setdefault(process, self.directories.get(self.first))
        named = re.match(r"\w+<(.*)>$", descriptor or "")
        if named:
            start = unescape(named.group(1))
        elif descriptor not in (None, "AT_FDCWD"):
            start = None
        if start is None and not text.startswith(b"/"):
            return None
        whole = text if text.startswith(b"/") else start + b"/" + text
        depth = os.path.normpath(whole)
        if depth != self.folder and not depth.startswith(self.folder + b"/"):
            return None
        return whole[len(self.folder):] or b"/" if whole.startswith(self.folder) else None

    def add(self, command, reply):
        self.lines.append(b"0 " + command)
        self.replies.append(b"0 " + reply + b" @%d" % self.clock)

    def refused(self, command, error):
        if error in ERRORS:
            self.add(command, b"no %d" % ERRORS[error])

    def look(self, verb, path, error, kind):
        if error:
            return self.refused(verb + b" " + spelled(path), error)
        number = self.names.walk(path, verb == b"llook")[2]
        known = self.names.kinds.get(number)
        if known is None or kind not in (None, known):
            raise ValueError(f"{verb.decode()} of {path!r}: the kernel found {kind}, the calls before left {known}")
        self.add(verb + b" " + spelled(path), b"is %d %s" % (number, known.encode()))

    def made(self, verb, path, error, kind, text=None):
        command = verb + b" " + (spelled(text) + b" " if text is not None else b"") + spelled(path)
        if error:
            return self.refused(command, error)
        directory, name, there = self.names.walk(path, True)
        if directory is None or there is not None:
            raise ValueError(f"{command!r}: made although the calls before left {there}")
        number = self.names.make(directory, name, kind, text)
        self.add(command, b"ok %d" % number)
        self.clock += 1

    def dropped(self, verb, path, error):
        if error:
            return self.refused(verb + b" " + spelled(path), error)
        directory, name, there = self.names.walk(path, True)
        if there is None:
            raise ValueError(f"{verb.decode()} of {path!r}, which the calls before did not leave")
        del self.names.entries[directory][name]
        self.add(verb + b" " + spelled(path), b"ok")
        self.clock += 1

    def linked(self, verb, old, new, error):
        command = verb + b" " + spelled(old) + b" " + spelled(new)
        if error:
            return self.refused(command, error)
        directory, name, number = self.names.walk(old, True)
        to, new_name, there = self.names.walk(new, True)
        if number is None or to is None:
            raise ValueError(f"{command!r}: the calls before did not leave it")
        self.add(command, b"ok %d" % number if verb == b"link" else b"ok")
        if verb == b"rename" and there == number:
            return
        self.names.entries[to][new_name] = number
        if verb == b"rename":
            del self.names.entries[directory][name]
            if self.names.kinds[number] == "dir":
                self.names.parents[number] = to
        self.clock += 1


def spelled(path):
    """A path as the lines of the server spell it."""
    out = b"".join({92: b"\\\\", 32: b"\\s", 10: b"\\n"}.get(byte, bytes([byte])) for byte in path)
    return out or b"\\e"


def take(script, call):
    """Makes a line of a call, if it has one."""
    process, name, arguments, result, error = call
    script.first = script.first or process
    texts = TEXT.findall(arguments)
    error = error if result == "-1" else None
    at = [part.strip() for part in TEXT.sub("", arguments).split(",")]
    if name in ("clone", "clone3", "fork", "vfork") and not error:
        script.directories[result] = script.directories.get(process)
    elif name == "getcwd" and texts and not error:
        script.directories[process] = unescape(texts[0])
    elif name == "chdir" and not error:
        text = unescape(texts[0])
        start = script.directories.get(process) or b"/"
        script.directories[process] = os.path.normpath(text if text.startswith(b"/") else start + b"/" + text)
    paths = [script.path(process, text, descriptor_of(name, at, i)) for i, text in enumerate(texts[:2])]
    if not texts or paths[0] is None or "AT_EMPTY_PATH" in arguments:
        if name not in ("symlink", "symlinkat") or len(texts) < 2:
            return
    if name in LOOKS or name == "statx":
        kept = LOOKS.get(name, False) or "AT_SYMLINK_NOFOLLOW" in arguments
        kind = next((kind for word, kind in KINDS.items() if word in arguments), None)
        script.look(b"llook" if kept else b"look", paths[0], error, kind)
    elif name in ("open", "openat"):
        opened(script, paths[0], arguments, error)
    elif name in ("readlink", "readlinkat"):
        command = b"readlink " + spelled(paths[0])
        script.refused(command, error) if error else script.add(command, b"text " + spelled(unescape(texts[1])))
    elif name in ("mkdir", "mkdirat"):
        script.made(b"mkdir", paths[0], error, "dir")
    elif name in ("symlink", "symlinkat") and paths[1] is not None:
        script.made(b"symlink", paths[1], error, "link", unescape(texts[0]))
    elif name in ("link", "linkat", "rename", "renameat", "renameat2") and paths[1] is not None:
        script.linked(b"link" if name.startswith("link") else b"rename", paths[0], paths[1], error)
    elif name in ("unlink", "rmdir", "unlinkat"):
        verb = b"rmdir" if name == "rmdir" or "AT_REMOVEDIR" in arguments else b"unlink"
        script.dropped(verb, paths[0], error)


def descriptor_of(name, words, i):
    """The directory that a path is relative to, if the call names one."""
    if not name.endswith(("at", "at2", "statx")) or name == "stat" or name == "lstat":
        return None
    if name == "symlinkat":
        return words[1] if i == 1 else None
    return words[0] if i == 0 else words[2] if len(words) > 2 and "link" not in name[:4] + "x" else words[2]


def opened(script, path, arguments, error):
    """An open is a look-up, or, if it makes the file, a creation."""
    if "O_CREAT" in arguments:
        exists = script.names.walk(path, False)[2] is not None
        if "O_EXCL" in arguments or not exists:
            return script.made(b"create", path, error, "file")
    elif "O_DIRECTORY" in arguments and error == "ENOTDIR":
        path += b"/"
    if error in (None, *ERRORS) and not (error == "ELOOP" and "O_NOFOLLOW" in arguments):
        script.look(b"look", path, error, None)


def main():
    if len(sys.argv) != 5:
        print(__doc__.split("\n\n")[1], file=sys.stderr)
        return 2
    script = Script(os.path.normpath(sys.argv[2]))
    with open(sys.argv[1], errors="surrogateescape") as trace:
        for call in Calls(trace):
            try:
                take(script, call)
            except ValueError as fault:
                print(f"bench/traces.py: {call}: {fault}", file=sys.stderr)
                return 1
    for name, lines in ((sys.argv[3], script.lines), (sys.argv[4], script.replies)):
        with open(name, "wb") as out:
            out.writelines(line + b"\n" for line in lines)
    return 0


if __name__ == "__main__":
    sys.exit(main())

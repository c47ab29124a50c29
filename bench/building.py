"""Builds the peers of bench/peers for bench/compare: of what each is built, and why one is left out."""

import os
import pathlib
import shutil
import subprocess

SOURCES = pathlib.Path(__file__).resolve().parent / "peers"
REGISTRY = pathlib.Path("/usr/share/cargo/registry")
LIMIT, FROM_C, TMPFS, OPENS = "by hand in C", "the cache, from C", "kernel's tmpfs", "tmpfs, open and close"
PEERS = {
    "limit": LIMIT,
    "embedded": FROM_C,
    "urcu": "liburcu",
    "locked": "RwLock in C",
    "rwlock": "RwLock in Rust",
    "dashmap": "DashMap",
    "tmpfs": TMPFS,
    "tmpfs_opens": OPENS,
}
# What some peers are built of, and how, if not of the file of their name.
VARIANTS = {"tmpfs_opens": ("tmpfs", ["-DOPENS"])}
# What Rattle's compiler takes by default.
LEVEL = "x86-64-v2"
# The peers that have their size when they are built, and how one gets it: the cache's rows by its buckets, and what
# stands behind them or in their place for up to a million names.
SIZED = {"limit": ["-DBUCKETS={}", "-DHEADS=(1 << 20)"], "embedded": ["-DBUCKETS={}"], "locked": ["-DSLOTS=(1 << 22)"]}


class LeftOut(Exception):
    """Why a peer isn't built here."""


def need(program):
    if not shutil.which(program):
        raise LeftOut(f"there is no {program}")
    return program


def run_builder(words, **more):
    if subprocess.run([str(word) for word in words], **more).returncode:
        raise LeftOut(f"{words[0]} refuses it")


def packages(*names):
    """What pkg-config has cc know of libraries."""
    words = [need("pkg-config"), "--cflags", "--libs", *names]
    asked = subprocess.run(words, stdout=subprocess.PIPE, stderr=subprocess.DEVNULL, text=True)
    if asked.returncode:
        raise LeftOut(f"pkg-config knows no {' and '.join(names)}")
    return asked.stdout.split()


class Builder:
    """Builds peers in a folder, where it is strict with warnings as errors."""

    def __init__(self, folder, strict):
        self.folder = pathlib.Path(folder)
        self.c_flags = ["-O2", "-pthread", f"-march={LEVEL}", *(["-Wall", "-Wextra", "-Werror"] if strict else [])]
        self.rust_flags = ["-C", f"target-cpu={LEVEL}", *(["-D", "warnings"] if strict else [])]

    def rwlock(self):
        words = [need("rustc"), "--edition", "2021", "--crate-type", "staticlib", *self.rust_flags]
        words += ["--out-dir", self.folder]
        modes = ("opt-level=3", "lto", "codegen-units=1", "panic=abort")
        run_builder([*words, *(word for mode in modes for word in ("-C", mode)), SOURCES / "maps/rwlock.rs"])
        return [self.folder / "librwlock.a"]

    def dashmap(self):
        if not any(REGISTRY.glob("dashmap-5*")):
            raise LeftOut(f"there is no dashmap in {REGISTRY}")
        copy = self.folder / "maps"
        shutil.copytree(SOURCES / "maps", copy)
        machine = ['source.crates-io.replace-with="machine"', f'source.machine.directory="{REGISTRY}"']
        words = [need("cargo"), "build", "--offline", "--quiet", "--release", "--target-dir", copy / "out"]
        environment = {**os.environ, "RUSTFLAGS": " ".join(self.rust_flags)}
        run_builder([*words, *(word for line in machine for word in ("--config", line))], cwd=copy, env=environment)
        return [copy / "out/release/libpeer.a"]

    def beside(self, peer):
        """What cc takes beside main.c."""
        if peer in ("rwlock", "dashmap"):
            return [*getattr(self, peer)(), "-ldl", "-lm"]
        source, flags = VARIANTS.get(peer, (peer, []))
        if source == "tmpfs" and not os.access("/dev/shm", os.W_OK):
            raise LeftOut("/dev/shm may not be written")
        libraries = {"embedded": ["gigbewu"], "urcu": ["liburcu", "liburcu-cds"]}.get(peer)
        return [*flags, SOURCES / f"{source}.c", *(packages(*libraries) if libraries else [])]

    def program(self, peer, ending="", flags=()):
        program = self.folder / f"{peer}{ending}"
        run_builder([need("cc"), *self.c_flags, *flags, "-o", program, SOURCES / "main.c", *self.beside(peer)])
        return str(program)

    def build(self):
        """The programs that can be built, by what they are called, and why the others can't."""
        built, left_out = {}, {}
        for peer, name in PEERS.items():
            try:
                built[name] = self.program(peer)
            except LeftOut as why:
                left_out[name] = str(why)
        return built, left_out

    def build_sized(self, built, buckets):
        """The same programs for a million names, if the cache has this many buckets, but for that which opens files."""
        sized = {name: program for name, program in built.items() if name != OPENS}
        for peer, flags in SIZED.items():
            if PEERS[peer] in built:
                sized[PEERS[peer]] = self.program(peer, f"-{buckets}", [flag.format(buckets) for flag in flags])
        return sized

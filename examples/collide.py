#!/usr/bin/env python3
"""Prints names whose hashes in the root agree in all 64 bits, a line each.

usage: examples/collide.py COUNT [BLOCKS]

The names are of letters and digits, made of BLOCKS blocks of eight bytes: as few as COUNT names need, unless it is
given, and at most 31, as a name has 255 bytes. If there are more blocks than that, the names begin alike. It takes a
few milliseconds.

64-bit FNV-1a makes h into (h ^ byte) * PRIME for each byte. Here h ^ byte is h + d, where d depends on the byte and on
the last byte of h alone. So n bytes make h into h * PRIME^n + d1 * PRIME^n + .. + dn * PRIME. Two blocks of n bytes
make the same of it if e1 * PRIME^(n-1) + .. + en is a multiple of 2^64, where e1 to en are the differences of their
d's. Small numbers e are a short vector of a lattice. Bytes with these differences are then searched one after the
other. As both blocks leave the last byte of h as it was, all names of such blocks have one hash.
"""
import itertools
import random
import string
import sys

BASIS, PRIME, WORD, BYTE = 0xCBF29CE484222325, 0x100000001B3, 1 << 64, 1 << 8
LETTERS = (string.digits + string.ascii_letters).encode()
LENGTH, MOST_BLOCKS, ROOT = 8, 31, 1


def hash_of(data, start=BASIS):
    for byte in data:
        start = (start ^ byte) * PRIME % WORD
    return start


def dot(one, other):
    return sum(a * b for a, b in zip(one, other))


def short_vectors():
    """Small numbers e as above, the shortest first: rows are made shorter by multiples of others, until none is."""
    rows = [[int(at == of) for at in range(LENGTH)] for of in range(LENGTH)]
    for of in range(LENGTH - 1):
        rows[of][-1] = -pow(PRIME, LENGTH - 1 - of, WORD) % WORD
    rows[-1][-1] = WORD
    is_shorter = True
    while is_shorter:
        is_shorter = False
        for at, of in itertools.permutations(range(LENGTH), 2):
            by = rows[of]
            times = (2 * dot(rows[at], by) + dot(by, by)) // (2 * dot(by, by))
            shorter = [a - times * b for a, b in zip(rows[at], by)]
            if dot(shorter, shorter) < dot(rows[at], rows[at]):
                rows[at], is_shorter = shorter, True
    mixed = (sum_of(rows, signs) for signs in itertools.product((-1, 0, 1), repeat=LENGTH) if any(signs))
    return sorted(mixed, key=lambda row: dot(row, row))


def sum_of(rows, signs):
    return [dot(signs, column) for column in zip(*rows)]


def blocks_of(low, differences):
    """Two blocks with these differences that lead from this last byte of a hash back to it, if there are."""
    known = {(low, low): (b"", b"")}
    for difference in differences:
        reached = {}
        for (one, other), (block, twin) in known.items():
            for letter in LETTERS:
                same = (one ^ letter) - one - difference + other
                if 0 <= same < BYTE and same ^ other in LETTERS:
                    ends = (one ^ letter) * PRIME % BYTE, same * PRIME % BYTE
                    reached.setdefault(ends, (block + bytes([letter]), twin + bytes([same ^ other])))
        known = reached
    return known.get((low, low))


def names_of(count, blocks=0):
    """This many names, in no order."""
    free = max(count - 1, 0).bit_length()
    start = hash_of(ROOT.to_bytes(8, "little"))
    pair = next(filter(None, (blocks_of(start % BYTE, row) for row in short_vectors())))
    numbers = random.Random(7).sample(range(1 << free), count)
    blocks = max(blocks, free, 1)
    names = [b"".join(pair[number >> at & 1] for at in reversed(range(blocks))) for number in numbers]
    assert blocks <= MOST_BLOCKS and len({hash_of(name, start) for name in names[:1000]}) <= 1
    return names


def main():
    if not 2 <= len(sys.argv) <= 3 or not all(word.isdigit() for word in sys.argv[1:]):
        sys.exit(__doc__)
    print(*(name.decode() for name in names_of(*map(int, sys.argv[1:]))), sep="\n")


if __name__ == "__main__":
    main()

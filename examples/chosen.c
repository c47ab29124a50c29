// Prints names of seven letters, a line each, that somebody chose: a hash table whose place for a key is the last bits of
// its hash, with both halves folded together, begins to search for all of them at one place. The hash is 64-bit FNV-1a
// over the eight bytes of the root's number, 1, and the name. usage: chosen NUMBER. It takes some seconds for 100,000.
#include <stdint.h>
#include <stdio.h>
#include <stdlib.h>

enum { LETTERS = 7, SAME_BITS = 14 };

static uint64_t next(uint64_t hash, unsigned char byte) {
    return (hash ^ byte) * 0x100000001b3;
}

int main(int count, char **words) {
    long left = count == 2 ? atol(words[1]) : 0;
    uint64_t hash[LETTERS + 1] = {0xcbf29ce484222325};
    char name[LETTERS + 1] = "aaaaaaa";
    for (int byte = 0; byte < 8; byte++) {
        hash[0] = next(hash[0], byte == 0);
    }
    int at = 0; // the first letter whose hash isn't known
    while (left > 0) {
        for (; at < LETTERS; at++) {
            hash[at + 1] = next(hash[at], name[at]);
        }
        uint32_t folded = hash[LETTERS] ^ hash[LETTERS] >> 32;
        if (folded % (1 << SAME_BITS) == 0) {
            puts(name);
            left--;
        }
        do {
            if (at-- == 0) {
                return 1;
            }
        } while (name[at]++ == 'z' && (name[at] = 'a'));
    }
    return 0;
}

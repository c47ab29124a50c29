/* A hash of a directory's number and a name, which takes eight bytes at a time. */
#ifndef HASH_H
#define HASH_H
#include <stddef.h>
#include <stdint.h>
#include <string.h>

static inline uint64_t hash_of(uint64_t parent, const char *name, size_t length)
{
    uint64_t hash = parent * 0x9e3779b97f4a7c15u;
    while (length >= 8) {
        uint64_t word;
        memcpy(&word, name, 8);
        hash = (hash ^ word) * 0xff51afd7ed558ccdu;
        hash ^= hash >> 32;
        name += 8, length -= 8;
    }
    uint64_t word = 0;
    memcpy(&word, name, length);
    hash = (hash ^ word ^ length << 56) * 0xff51afd7ed558ccdu;
    return hash ^ hash >> 32;
}

#endif

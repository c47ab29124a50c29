/* A hash table of names behind one lock for readers and a writer, taken once for a path. */
#define _GNU_SOURCE
#include "hash.h"
#include "peer.h"
#include <pthread.h>
#include <stdint.h>
#include <stdlib.h>
#include <string.h>

/* Twice as many as names may come, or more. */
#ifndef SLOTS
#define SLOTS (1 << 18)
#endif

const char *const peer_name = "rwlock";

/* A name of a directory: the number that it leads to, 0 if it is gone, and whether that is a directory. */
struct entry {
    uint64_t parent, number;
    const char *name;
    size_t length;
    int is_directory;
};

static struct entry entries[SLOTS];
static size_t entry_count;
static uint64_t next_number;
static pthread_rwlock_t lock = PTHREAD_RWLOCK_INITIALIZER;

/* The slot of a name: its own, or the free one where it would stand. */
static struct entry *slot_of(uint64_t parent, const char *name, size_t length)
{
    for (uint64_t at = hash_of(parent, name, length);; at++) {
        struct entry *entry = &entries[at % SLOTS];
        if (!entry->name)
            return entry;
        if (entry->parent == parent && entry->length == length && !memcmp(entry->name, name, length))
            return entry;
    }
}

static struct entry *walk(const char *path, size_t length, int all)
{
    static struct entry root = {0, 1, "", 0, 1};
    struct entry *found = &root;
    const char *end = path + length;
    while (path < end) {
        const char *name = path + 1, *stop = memchr(name, '/', (size_t)(end - name));
        path = stop ? stop : end;
        if (!found->is_directory || (!all && path == end))
            break;
        found = slot_of(found->number, name, (size_t)(path - name));
        if (!found->number)
            return NULL;
    }
    return found;
}

void peer_begin(void)
{
    next_number = 2;
}

void peer_enter(void)
{
}

void peer_leave(void)
{
}

/* The slot of a path's last name, or none if its directory isn't there. */
static struct entry *last_of(const char *path, const char **name)
{
    struct entry *parent = walk(path, strlen(path), 0);
    *name = strrchr(path, '/') + 1;
    return parent && parent->is_directory ? slot_of(parent->number, *name, strlen(*name)) : NULL;
}

/* Has a path lead to a number that it doesn't lead to. */
static int put(const char *path, uint64_t number, int is_directory)
{
    const char *name;
    struct entry *parent = walk(path, strlen(path), 0), *entry = last_of(path, &name);
    if (!entry || entry->number || (!entry->name && ++entry_count > SLOTS / 2))
        return 0;
    if (!entry->name)
        *entry = (struct entry){parent->number, 0, name, strlen(name), 0};
    entry->number = number;
    entry->is_directory = is_directory;
    return 1;
}

/* Has a file's path lead nowhere, and answers the number. */
static uint64_t take(const char *path)
{
    const char *name;
    struct entry *entry = last_of(path, &name);
    uint64_t number = entry && !entry->is_directory ? entry->number : 0;
    if (number)
        entry->number = 0;
    return number;
}

int peer_make(char kind, const char *path)
{
    pthread_rwlock_wrlock(&lock);
    int made = put(path, next_number, kind == 'd');
    next_number += (uint64_t)made;
    pthread_rwlock_unlock(&lock);
    return made;
}

int peer_rename(const char *old, const char *new)
{
    pthread_rwlock_wrlock(&lock);
    uint64_t number = take(old);
    int renamed = number && put(new, number, 0);
    pthread_rwlock_unlock(&lock);
    return renamed;
}

int peer_unlink(const char *path)
{
    pthread_rwlock_wrlock(&lock);
    uint64_t number = take(path);
    pthread_rwlock_unlock(&lock);
    return number != 0;
}

int peer_look(const char *path, size_t length)
{
    pthread_rwlock_rdlock(&lock);
    int found = walk(path, length, 1) != NULL;
    pthread_rwlock_unlock(&lock);
    return found;
}

void peer_end(void)
{
}

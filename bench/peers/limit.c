/* The limit: a walk by hand over rows of the cache's layout, which checks what the cache checks and proves nothing.
 *
 * Word 0 is the clock, word 1 the lock, and row r has the words from 2 + 36r on: its count, its header (tag 1, the
 * length from bit 8, the kind from bit 24), the number of its directory, the target's number or 0, and the name in 32
 * words. The row of a link's text has tag 2, the link's number, a 0, and the text, which begins at the root. A bucket
 * has four rows. Each load and each store is sequentially consistent. There are 1,024 buckets, or -DBUCKETS=N.
 *
 * It is the quickest walk over such rows that we know: of a name it packs the words that the name fills and no more, and
 * of a row that it uses it reads all words. With -DWHOLE it clears and packs all 32 words of each name, as it did until
 * November 2026.
 *
 * Behind the rows stands a table of all names, which is read and changed by the thread that has the lock. A change makes
 * the counts of its names' rows odd, adds one to the clock, writes what the rows tell now, and makes the counts even. */
#define _GNU_SOURCE
#include "peer.h"
#include <linux/futex.h>
#include <stdatomic.h>
#include <stdint.h>
#include <stdio.h>
#include <stdlib.h>
#include <string.h>
#include <sys/syscall.h>
#include <unistd.h>

#ifndef BUCKETS
#define BUCKETS 1024
#endif
#ifndef HEADS
#define HEADS (1 << 17)
#endif

enum { BUCKET_ROWS = 4, ROW = 36, NAME_WORDS = 32, MOST_NOTES = 256, ENTRY = 1, TEXT = 2, ROOT = 1 };
enum { NONE, DIRECTORY, PLAIN_FILE, LINK };
enum { MOST_LINKS = 40, MOST_PATH = 4095, TEXT_ROOM = 8 * NAME_WORDS, LINK_TEXTS = 1 << 13 };
enum { WALKS = 8, TRIES = 20, MOST_DOUBLINGS = 9 };

/* What a walk by rows finds: what the path leads to or that it leads nowhere, that a name has no row, or that a row
 * was changed meanwhile. */
enum answer { ABSENT, FOUND, MISSED, DISTURBED };

#define PRIME 1099511628211u
#define PRIME_TO_4TH (PRIME * PRIME * PRIME * PRIME)
#define PRIME_TO_6TH (PRIME_TO_4TH * PRIME * PRIME)

const char *const peer_name = "limit";

static _Atomic uint64_t words[2 + (size_t)BUCKETS * BUCKET_ROWS * ROW];
static uint64_t next_number;

/* What a walk remembers of a row that it used. */
struct note {
    size_t row;
    uint64_t count;
};

/* What a name leads to. */
struct told {
    uint64_t target;
    int kind;
};

/* A name of a directory. */
struct key {
    uint64_t parent, hash;
    const char *name;
    size_t length;
};

/* What the table behind the rows has of a name. */
struct entry {
    struct entry *next;
    uint64_t parent, hash;
    struct told told;
    size_t length;
    char name[];
};

static struct entry *heads[HEADS];
/* The text of each link, by its number. */
static const char *texts[LINK_TEXTS];
/* The row of each bucket that is given up next. */
static unsigned char turns[BUCKETS];

/* The hash of a directory's number, to which the name's bytes are added. A byte that is zero only multiplies. */
static inline uint64_t hash_number(uint64_t number)
{
    uint64_t hash = 14695981039346656037u;
    if (number < 1u << 16) {
        hash = (hash ^ (number & 255)) * PRIME;
        return (hash ^ (number >> 8)) * PRIME * PRIME_TO_6TH;
    }
    int bytes = number >> 32 ? 8 : 4;
    for (int i = 0; i < bytes; i++)
        hash = (hash ^ (number >> 8 * i & 255)) * PRIME;
    return bytes == 4 ? hash * PRIME_TO_4TH : hash;
}

/* A name in the words that it fills, the first byte lowest, and how many these are. The last is filled up with zeros. */
static inline size_t pack(const char *name, size_t length, uint64_t packed[NAME_WORDS])
{
#ifdef WHOLE
    memset(packed, 0, NAME_WORDS * sizeof *packed);
    memcpy(packed, name, length);
    return NAME_WORDS;
#else
    size_t full = length / 8;
    for (size_t i = 0; i < full; i++)
        memcpy(&packed[i], name + 8 * i, 8);
    if (length % 8 == 0)
        return full;
    packed[full] = 0;
    for (size_t at = length; at > 8 * full; at--)
        packed[full] = packed[full] << 8 | (unsigned char)name[at - 1];
    return full + 1;
#endif
}

/* Whether a row's text, all of which is read, is these words, and zeros after them. */
static inline int is_text(size_t row, const uint64_t packed[NAME_WORDS], size_t filled)
{
    uint64_t differ = 0;
    for (size_t i = 0; i < filled; i++)
        differ |= words[row + 4 + i] ^ packed[i];
    for (size_t i = filled; i < NAME_WORDS; i++)
        differ |= words[row + 4 + i];
    return !differ;
}

/* Writes a row's text: these words, and zeros after them. */
static void write_text(size_t row, const uint64_t packed[NAME_WORDS], size_t filled)
{
    for (size_t i = 0; i < NAME_WORDS; i++)
        words[row + 4 + i] = i < filled ? packed[i] : 0;
}

static size_t row_of(uint64_t hash, size_t i)
{
    return 2 + (hash % BUCKETS * BUCKET_ROWS + i) * ROW;
}

/* Reads the row of a key, if its bucket has one that is even: FOUND, else MISSED or DISTURBED. */
static inline enum answer find(uint64_t number, uint64_t hash, const char *name, size_t length, struct told *told,
                               struct note *note)
{
    uint64_t counts = 0, packed[NAME_WORDS];
    size_t filled = pack(name, length, packed);
    for (size_t i = 0; i < BUCKET_ROWS; i++) {
        size_t row = row_of(hash, i);
        uint64_t count = words[row];
        uint64_t header = words[row + 1];
        counts |= count;
        if (count % 2 || (header & 0xffffff) != (ENTRY | (uint64_t)length << 8))
            continue;
        if (words[row + 2] != number)
            continue;
        uint64_t target = words[row + 3];
        if (!is_text(row, packed, filled))
            continue;
        *told = (struct told){target, (int)(header >> 24)};
        *note = (struct note){row, count};
        return FOUND;
    }
    return counts % 2 ? DISTURBED : MISSED;
}

/* Reads the row of a link's text, as find reads that of a key. */
static enum answer find_text(uint64_t number, char text[TEXT_ROOM], size_t *length, struct note *note)
{
    uint64_t counts = 0;
    for (size_t i = 0; i < BUCKET_ROWS; i++) {
        size_t row = row_of(hash_number(number), i);
        uint64_t count = words[row];
        uint64_t header = words[row + 1];
        counts |= count;
        if (count % 2 || (header & 0xff) != TEXT || words[row + 2] != number || words[row + 3])
            continue;
        uint64_t packed[NAME_WORDS];
        for (size_t j = 0; j < NAME_WORDS; j++)
            packed[j] = words[row + 4 + j];
        memcpy(text, packed, TEXT_ROOM);
        *length = header >> 8;
        *note = (struct note){row, count};
        return FOUND;
    }
    return counts % 2 ? DISTURBED : MISSED;
}

static int all_stand(const struct note *notes, size_t count)
{
    for (size_t i = 0; i < count; i++)
        if (words[notes[i].row] != notes[i].count)
            return 0;
    return 1;
}

/* The notes of a walk, and how many links it followed. */
struct walked {
    struct note notes[MOST_NOTES];
    size_t used, links;
};

static enum answer follow(struct walked *walked, struct told *told);

/* Goes over a path from the root, and over the text of each link in place of the link. */
static inline __attribute__((always_inline)) enum answer go_over(struct walked *walked, const char *path, size_t length,
                                                                 struct told *found)
{
    size_t used = walked->used, at = 0;
    struct told told = {ROOT, DIRECTORY};
    while (at < length && told.kind == DIRECTORY) {
        at += 1;
        size_t begin = at;
        uint64_t hash = hash_number(told.target);
        while (at < length && path[at] != '/')
            hash = (hash ^ (unsigned char)path[at++]) * PRIME;
        if (at - begin > 8 * NAME_WORDS || used == MOST_NOTES)
            return MISSED;
        enum answer answer = find(told.target, hash, path + begin, at - begin, &told, &walked->notes[used]);
        if (answer != FOUND)
            return answer;
        used += 1;
        if (told.kind != LINK)
            continue;
        struct told through = told;
        walked->used = used;
        answer = follow(walked, &through);
        if (answer != FOUND)
            return answer;
        used = walked->used;
        told = through;
    }
    walked->used = used;
    *found = at == length ? told : (struct told){0, NONE};
    return FOUND;
}

/* Where the text of a link leads. */
static __attribute__((noinline)) enum answer follow(struct walked *walked, struct told *told)
{
    char text[TEXT_ROOM];
    size_t length;
    if (walked->links++ == MOST_LINKS || walked->used == MOST_NOTES)
        return MISSED;
    enum answer answer = find_text(told->target, text, &length, &walked->notes[walked->used]);
    if (answer != FOUND)
        return answer;
    walked->used += 1;
    return go_over(walked, text, length, told);
}

static enum answer walk(const char *path, size_t length)
{
    static _Thread_local struct walked walked;
    struct told told;
    /* A text that is no path is refused, as the cache refuses it. */
    if (!length || length > MOST_PATH || memchr(path, 0, length))
        return ABSENT;
    walked.used = walked.links = 0;
    enum answer answer = go_over(&walked, path, length, &told);
    if (answer != FOUND)
        return answer;
    (void)atomic_load(&words[0]);
    if (!all_stand(walked.notes, walked.used))
        return DISTURBED;
    return told.kind == NONE ? ABSENT : FOUND;
}

/* Takes the lock. A thread that finds it taken looks again after pauses that double, so that its holder has the word to
 * itself, and sleeps in the end. */
static void take(void)
{
    for (int i = 0; i < TRIES; i++) {
        uint64_t is_free = 0;
        if (!words[1] && atomic_compare_exchange_strong(&words[1], &is_free, 1))
            return;
        for (int j = 0; j < 1 << (i < MOST_DOUBLINGS ? i : MOST_DOUBLINGS); j++)
            __builtin_ia32_pause();
    }
    while (atomic_exchange(&words[1], 2))
        syscall(SYS_futex, &words[1], FUTEX_WAIT_PRIVATE, 2, NULL, NULL, 0);
}

/* Gives the lock back, and wakes a thread if one may sleep. */
static void give(void)
{
    if (atomic_exchange(&words[1], 0) == 2)
        syscall(SYS_futex, &words[1], FUTEX_WAKE_PRIVATE, 1, NULL, NULL, 0);
}

/* Takes a slash and the name behind it off a path. */
static struct key next_key(uint64_t parent, const char **path)
{
    const char *name = *path + 1, *at = name;
    uint64_t hash = hash_number(parent);
    while (*at && *at != '/')
        hash = (hash ^ (unsigned char)*at++) * PRIME;
    *path = at;
    return (struct key){parent, hash, name, (size_t)(at - name)};
}

/* The link of a chain that leads to a key's entry, or the chain's end. */
static struct entry **link_of(const struct key *key)
{
    struct entry **link = &heads[key->hash % HEADS];
    for (; *link; link = &(*link)->next)
        if ((*link)->hash == key->hash && (*link)->parent == key->parent && (*link)->length == key->length &&
            !memcmp((*link)->name, key->name, key->length))
            break;
    return link;
}

static struct told told_of(const struct entry *entry)
{
    return entry ? entry->told : (struct told){0, NONE};
}

/* The key of a path's last name, if the directories above it are there. */
static int last_of(const char *path, struct key *key)
{
    struct told told = {ROOT, DIRECTORY};
    while (*path && told.kind == DIRECTORY) {
        *key = next_key(told.target, &path);
        if (*path)
            told = told_of(*link_of(key));
    }
    return !*path && told.kind == DIRECTORY;
}

static uint64_t header_of(size_t length, int kind)
{
    return ENTRY | (uint64_t)length << 8 | (uint64_t)kind << 24;
}

/* The row of a key, or 0. */
static size_t row_with(const struct key *key)
{
    struct told told;
    struct note note;
    if (key->length > 8 * NAME_WORDS)
        return 0;
    return find(key->parent, key->hash, key->name, key->length, &told, &note) == FOUND ? note.row : 0;
}

/* A row that tells nothing, or if there is none the one whose turn it is. */
static size_t row_for(uint64_t hash)
{
    for (size_t i = 0; i < BUCKET_ROWS; i++)
        if (!words[row_of(hash, i) + 1])
            return row_of(hash, i);
    return row_of(hash, turns[hash % BUCKETS]++ % BUCKET_ROWS);
}

static void fill(const struct key *key, struct told told)
{
    uint64_t name[NAME_WORDS];
    if (key->length > 8 * NAME_WORDS)
        return;
    size_t row = row_for(key->hash), filled = pack(key->name, key->length, name);
    words[row]++;
    words[row + 1] = header_of(key->length, told.kind);
    words[row + 2] = key->parent;
    words[row + 3] = told.target;
    write_text(row, name, filled);
    words[row]++;
}

/* Writes the row of a link's text, if it has none. */
static void fill_text(uint64_t number)
{
    char old[TEXT_ROOM];
    uint64_t text[NAME_WORDS];
    size_t length = strlen(texts[number]), old_length;
    struct note note;
    if (length > TEXT_ROOM || find_text(number, old, &old_length, &note) == FOUND)
        return;
    size_t row = row_for(hash_number(number)), filled = pack(texts[number], length, text);
    words[row]++;
    words[row + 1] = TEXT | (uint64_t)length << 8;
    words[row + 2] = number;
    words[row + 3] = 0;
    write_text(row, text, filled);
    words[row]++;
}

/* Looks a path up in the table, and fills the rows that it wants. */
static struct told told_held(const char *path)
{
    struct told told = {ROOT, DIRECTORY};
    while (*path && told.kind == DIRECTORY) {
        struct key key = next_key(told.target, &path);
        told = told_of(*link_of(&key));
        if (!row_with(&key))
            fill(&key, told);
        if (told.kind == LINK) {
            fill_text(told.target);
            told = told_held(texts[told.target]);
        }
    }
    return *path ? (struct told){0, NONE} : told;
}

static int look_held(const char *path)
{
    return told_held(path).kind != NONE;
}

int peer_look(const char *path, size_t length)
{
    for (int i = 0; i < WALKS; i++) {
        enum answer answer = walk(path, length);
        if (answer == MISSED)
            break;
        if (answer != DISTURBED)
            return answer == FOUND;
    }
    take();
    int found = look_held(path);
    give();
    return found;
}

/* Shuts the row of a key, if it has one. */
static size_t shut(const struct key *key)
{
    size_t row = row_with(key);
    if (row)
        words[row]++;
    return row;
}

/* Writes what a name leads to into its row that was shut, and opens that. */
static void tell_and_open(size_t row, const struct key *key, struct told told)
{
    if (!row)
        return;
    words[row + 1] = header_of(key->length, told.kind);
    words[row + 3] = told.target;
    words[row]++;
}

static struct entry *entry_of(const struct key *key, struct told told)
{
    struct entry *entry = malloc(sizeof *entry + key->length);
    if (!entry) {
        perror(peer_name);
        exit(3);
    }
    *entry = (struct entry){NULL, key->parent, key->hash, told, key->length};
    memcpy(entry->name, key->name, key->length);
    return entry;
}

/* Has a name lead to something that led nowhere, or nowhere. */
static void set(const struct key *key, struct told told)
{
    struct entry **link = link_of(key), *old = *link;
    if (told.kind != NONE) {
        *link = entry_of(key, told);
        return;
    }
    *link = old->next;
    free(old);
}

/* One name leads elsewhere from now on. */
static void change(const struct key *key, struct told told)
{
    size_t row = shut(key);
    set(key, told);
    words[0]++;
    tell_and_open(row, key, told);
}

void peer_begin(void)
{
    next_number = ROOT + 1;
}

void peer_enter(void)
{
}

void peer_leave(void)
{
}

int peer_make(char kind, const char *path)
{
    struct key key;
    take();
    int made = last_of(path, &key) && !*link_of(&key);
    if (made)
        change(&key, (struct told){next_number++, kind == 'd' ? DIRECTORY : PLAIN_FILE});
    give();
    return made;
}

int peer_link(const char *text, const char *path)
{
    struct key key;
    if (next_number == LINK_TEXTS || !last_of(path, &key) || *link_of(&key))
        return 0;
    texts[next_number] = text;
    set(&key, (struct told){next_number++, LINK});
    return 1;
}

int peer_unlink(const char *path)
{
    struct key key;
    take();
    int gone = last_of(path, &key) && told_of(*link_of(&key)).kind == PLAIN_FILE;
    if (gone)
        change(&key, (struct told){0, NONE});
    give();
    return gone;
}

/* Both rows are shut at once, so that no walk finds both names or neither. */
static void move(const struct key *old, const struct key *new, struct told told)
{
    size_t row = shut(old), new_row = shut(new);
    set(old, (struct told){0, NONE});
    set(new, told);
    words[0]++;
    tell_and_open(row, old, (struct told){0, NONE});
    tell_and_open(new_row, new, told);
}

int peer_rename(const char *old, const char *new)
{
    struct key from, to;
    take();
    int is_there = last_of(old, &from) && last_of(new, &to) && !*link_of(&to);
    struct told told = is_there ? told_of(*link_of(&from)) : (struct told){0, NONE};
    if (told.kind == PLAIN_FILE)
        move(&from, &to, told);
    give();
    return told.kind == PLAIN_FILE;
}

void peer_end(void)
{
}

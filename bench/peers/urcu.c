/* The lock-free hash table of liburcu: a map of names to what they lead to, and no lock.
 *
 * A look-up takes one name after the other in one read-side section. Each step is right when it is made; of the path as
 * a whole nothing is promised. A rename adds the new name before it removes the old one, and readers can see both. */
#define _LGPL_SOURCE
#define URCU_INLINE_SMALL_FUNCTIONS
#include "hash.h"
#include "peer.h"
#include <stdatomic.h>
#include <stdio.h>
#include <stdlib.h>
#include <urcu.h>
#include <urcu/rculfhash.h>

enum { FEWEST_BUCKETS = 4096, ROOT = 1 };

const char *const peer_name = "urcu";

/* A name of a directory, and what it leads to. It never changes once it is added. */
struct entry {
    struct cds_lfht_node node;
    struct rcu_head freed;
    uint64_t parent, number;
    int is_directory;
    size_t length;
    char name[];
};

struct key {
    uint64_t parent;
    const char *name;
    size_t length;
};

static struct cds_lfht *table;
static _Atomic uint64_t next_number = ROOT + 1;

static struct entry *entry_at(struct cds_lfht_node *node)
{
    return caa_container_of(node, struct entry, node);
}

static int is_at(struct cds_lfht_node *node, const void *asked)
{
    const struct entry *entry = entry_at(node);
    const struct key *key = asked;
    return entry->parent == key->parent && entry->length == key->length && !memcmp(entry->name, key->name, key->length);
}

static uint64_t hash_of_key(const struct key *key)
{
    return hash_of(key->parent, key->name, key->length);
}

static struct entry *find(const struct key *key)
{
    struct cds_lfht_iter place;
    cds_lfht_lookup(table, hash_of_key(key), is_at, key, &place);
    struct cds_lfht_node *node = cds_lfht_iter_get_node(&place);
    return node ? entry_at(node) : NULL;
}

/* The key of a path's last name, if the directories above it are there. */
static int last_of(const char *path, size_t length, struct key *key)
{
    const char *end = path + length;
    uint64_t parent = ROOT;
    for (;;) {
        const char *name = path + 1, *stop = memchr(name, '/', (size_t)(end - name));
        path = stop ? stop : end;
        *key = (struct key){parent, name, (size_t)(path - name)};
        if (path == end)
            return 1;
        const struct entry *entry = find(key);
        if (!entry || !entry->is_directory)
            return 0;
        parent = entry->number;
    }
}

int peer_look(const char *path, size_t length)
{
    struct key key;
    rcu_read_lock();
    int found = last_of(path, length, &key) && find(&key);
    rcu_read_unlock();
    return found;
}

/* Has a name that led nowhere lead to a number, and answers whether it led nowhere. */
static int add(const struct key *key, uint64_t number, int is_directory)
{
    struct entry *entry = malloc(sizeof *entry + key->length);
    if (!entry) {
        perror(peer_name);
        exit(3);
    }
    cds_lfht_node_init(&entry->node);
    entry->parent = key->parent;
    entry->number = number;
    entry->is_directory = is_directory;
    entry->length = key->length;
    memcpy(entry->name, key->name, key->length);
    if (cds_lfht_add_unique(table, hash_of_key(key), is_at, key, &entry->node) == &entry->node)
        return 1;
    free(entry);
    return 0;
}

static void release(struct rcu_head *freed)
{
    free(caa_container_of(freed, struct entry, freed));
}

/* Takes an entry away, unless another thread does. */
static int drop(struct entry *entry)
{
    if (cds_lfht_del(table, &entry->node))
        return 0;
    call_rcu(&entry->freed, release);
    return 1;
}

void peer_begin(void)
{
    table = cds_lfht_new(FEWEST_BUCKETS, FEWEST_BUCKETS, 0, CDS_LFHT_AUTO_RESIZE | CDS_LFHT_ACCOUNTING, NULL);
    if (!table) {
        perror(peer_name);
        exit(3);
    }
}

void peer_enter(void)
{
    rcu_register_thread();
}

void peer_leave(void)
{
    rcu_unregister_thread();
}

int peer_make(char kind, const char *path)
{
    struct key key;
    rcu_read_lock();
    int made = last_of(path, strlen(path), &key) && add(&key, next_number++, kind == 'd');
    rcu_read_unlock();
    return made;
}

int peer_unlink(const char *path)
{
    struct key key;
    rcu_read_lock();
    struct entry *entry = last_of(path, strlen(path), &key) ? find(&key) : NULL;
    int gone = entry && !entry->is_directory && drop(entry);
    rcu_read_unlock();
    return gone;
}

int peer_rename(const char *old, const char *new)
{
    struct key from, to;
    rcu_read_lock();
    struct entry *entry = last_of(old, strlen(old), &from) && last_of(new, strlen(new), &to) ? find(&from) : NULL;
    int renamed = entry && !entry->is_directory && add(&to, entry->number, 0) && drop(entry);
    rcu_read_unlock();
    return renamed;
}

void peer_end(void)
{
}

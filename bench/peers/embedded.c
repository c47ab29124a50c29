/* The cache itself, by the functions of gigbewu.h: by rows, and if these don't answer under the lock. */
#include "peer.h"
#include <gigbewu.h>
#include <pthread.h>
#include <stdio.h>
#include <stdlib.h>
#include <string.h>

const char *const peer_name = "embedded";

#ifndef BUCKETS
#define BUCKETS 1024
#endif

enum { ROOT = 1, INODES = 1048576 };

static struct gb_gate gate;
static struct gb_pass first;
static pthread_mutex_t splitting = PTHREAD_MUTEX_INITIALIZER;
static _Thread_local struct gb_pass own;

static void must(int answer)
{
    if (answer != 0) {
        fprintf(stderr, "%s: answer %d\n", peer_name, answer);
        exit(3);
    }
}

void peer_begin(void)
{
    gate = gb_gate_new();
    must(gb_cache_new(BUCKETS, INODES, &first));
}

void peer_enter(void)
{
    pthread_mutex_lock(&splitting);
    must(gb_pass_split(&first, &own));
    pthread_mutex_unlock(&splitting);
}

void peer_leave(void)
{
    must(gb_close(&own));
}

int peer_make(char kind, const char *path)
{
    struct gb_found found;
    if (kind == 'd')
        return gb_mkdir(&gate, &own, ROOT, path, strlen(path), &found) == 0;
    return gb_create(&gate, &own, ROOT, path, strlen(path), &found) == 0;
}

int peer_link(const char *text, const char *path)
{
    struct gb_found found;
    return gb_symlink(&gate, &own, ROOT, text, strlen(text), path, strlen(path), &found) == 0;
}

int peer_rename(const char *old, const char *new)
{
    struct gb_found found;
    struct gb_gone gone;
    return gb_rename(&gate, &own, ROOT, old, strlen(old), new, strlen(new), 0, &found, &gone) == 0;
}

int peer_unlink(const char *path)
{
    struct gb_found found;
    struct gb_gone gone;
    return gb_unlink(&gate, &own, ROOT, path, strlen(path), &found, &gone) == 0;
}

#ifdef RESOLVES
/* For a caller many of whose look-ups miss. */
int peer_look(const char *path, size_t length)
{
    struct gb_found found;
    return gb_resolve(&gate, &own, ROOT, path, length, GB_FOLLOW, &found) == 0;
}
#else
/* Of its own, so that a look-up that the rows answer saves no registers for it. */
static __attribute__((noinline)) int look_filled(const char *path, size_t length)
{
    struct gb_found found;
    return gb_look_missed(&gate, &own, ROOT, path, length, GB_FOLLOW, &found) == 0;
}

int peer_look(const char *path, size_t length)
{
    struct gb_found found;
    int answer = gb_look_fast(&own, ROOT, path, length, GB_FOLLOW, &found);
    if (answer == GB_AGAIN)
        return look_filled(path, length);
    return answer == 0;
}
#endif

void peer_end(void)
{
    must(gb_close(&first));
}

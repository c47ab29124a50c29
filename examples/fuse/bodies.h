/* What a file, directory or link has besides its names: its bytes, owner, mode and times, by inode number. Numbers are
 * never used again, so a body that has gone is asked for by nobody later.
 */
#ifndef BODIES_H
#define BODIES_H
#include "pages.h"
#include <pthread.h>
#include <stdbool.h>
#include <stdint.h>
#include <sys/stat.h>
#include <time.h>

/* A lock of the other file guards what stands before `lock`, that what stands behind. */
struct body {
    struct body *next;
    uint64_t number;
    uint64_t users; /* calls at work on it, open files, and what the kernel was told of: it stays as long as there are any */
    bool gone;      /* its last name is */
    pthread_mutex_t lock;
    mode_t mode;
    uid_t owner;
    gid_t group;
    nlink_t names;
    struct timespec read, written, changed;
    struct pages pages;
    uint64_t size;
    uint64_t parent; /* where it was found last, and by which name; NULL if it wasn't yet */
    char *name;
};

/* Once, before all else. */
void bodies_begin(void);

/* How many there are. */
long bodies_count(void);

struct timespec now(void);

/* A body without a number, which nobody else knows. NULL if out of memory. */
struct body *body_new(mode_t mode, uid_t owner, gid_t group);

/* Ends a body that has no number. */
void body_free(struct body *body);

/* The one use of a new body stays with the caller. */
void body_number(struct body *body, uint64_t number);

/* Round a call that makes an inode: from before the call until its body has the number. */
void making_begin(void);
void making_end(void);

/* The body of a number that a call told, for the caller to let go; NULL if it has gone since. */
struct body *body_of(uint64_t number);

/* One use more of a body that the caller has. */
void body_keep(struct body *body);

/* Ends this many uses of it. `gone`: its last name was taken away. The last to let go of what has gone ends it. */
void body_let_go(struct body *body, uint64_t uses, bool gone);

/* Of a body that is locked. What it grows by are zeros, which take no memory. */
void body_resize(struct body *body, uint64_t size);

#endif

#define FUSE_USE_VERSION 31
#include "modes.h"
#include "attributes.h"
#include "tree.h"
#include <errno.h>
#include <fcntl.h>
#include <gigbewu.h>
#include <stdatomic.h>
#include <stdio.h>
#include <stdlib.h>
#include <unistd.h>

/* The kernel's flag of an open for execution, which needs no leave to read. */
enum { OPEN_TO_EXECUTE = 0x20 };

static bool tested;
static atomic_long tests, refused;

void modes_begin(void)
{
    tested = true;
}

bool modes_are_tested(void)
{
    return tested;
}

void modes_tell(void)
{
    if (tested)
        fprintf(stderr, "modes: %ld tests, of which %ld refused; ", tests, refused);
}

static int counted(int answer)
{
    atomic_fetch_add(&tests, 1);
    if (answer != 0)
        atomic_fetch_add(&refused, 1);
    return answer;
}

/* Answers 0 or ESTALE. */
static int attributes_by(fuse_ino_t number, struct stat *attributes)
{
    struct body *body = body_of(number);
    if (!body)
        return ESTALE;
    attributes_of(body, attributes);
    body_let_go(body, 1, false);
    return 0;
}

static bool is_among(gid_t group, const gid_t *groups, int count)
{
    for (int i = 0; i < count; i++)
        if (groups[i] == group)
            return true;
    return false;
}

/* Supplementary groups are known to /proc alone. If that doesn't tell, there are none. */
static bool has_group(fuse_req_t request, gid_t group)
{
    if (fuse_req_ctx(request)->gid == group)
        return true;
    int count = fuse_req_getgroups(request, 0, NULL);
    gid_t *groups = count > 0 ? malloc((size_t)count * sizeof *groups) : NULL;
    if (!groups)
        return false;
    int told = fuse_req_getgroups(request, count, groups);
    bool has = is_among(group, groups, told < count ? told : count);
    free(groups);
    return has;
}

static bool is_root(fuse_req_t request)
{
    return fuse_req_ctx(request)->uid == 0;
}

static bool is_owner(fuse_req_t request, const struct stat *of)
{
    return is_root(request) || fuse_req_ctx(request)->uid == of->st_uid;
}

/* Root may all, but execute what nobody may. */
static bool may(fuse_req_t request, const struct stat *of, int mask)
{
    if (is_root(request))
        return !(mask & X_OK) || !S_ISREG(of->st_mode) || of->st_mode & (S_IXUSR | S_IXGRP | S_IXOTH);
    int bits = (int)of->st_mode;
    if (fuse_req_ctx(request)->uid == of->st_uid)
        bits >>= 6;
    else if (has_group(request, of->st_gid))
        bits >>= 3;
    return (bits & mask) == mask;
}

/* The attributes too, whenever it answers 0. */
static int allowed(fuse_req_t request, fuse_ino_t number, int mask, struct stat *attributes)
{
    int answer = attributes_by(number, attributes);
    if (answer != 0)
        return answer;
    return may(request, attributes, mask) ? 0 : EACCES;
}

int modes_access(fuse_req_t request, fuse_ino_t number, int mask)
{
    struct stat attributes;
    return tested ? counted(allowed(request, number, mask, &attributes)) : 0;
}

int modes_search(fuse_req_t request, fuse_ino_t directory)
{
    return modes_access(request, directory, X_OK);
}

int modes_make(fuse_req_t request, fuse_ino_t directory)
{
    return modes_access(request, directory, W_OK | X_OK);
}

int modes_open(fuse_req_t request, fuse_ino_t number, int flags)
{
    int access = flags & O_ACCMODE;
    int mask = access == O_WRONLY ? W_OK : access == O_RDWR ? R_OK | W_OK : R_OK;
    if (flags & OPEN_TO_EXECUTE)
        mask = X_OK;
    if (flags & O_TRUNC)
        mask |= W_OK;
    return modes_access(request, number, mask);
}

/* What stands at a name, if anything does. The kernel keeps it there meanwhile. */
static bool found(fuse_ino_t directory, const char *name, struct stat *attributes)
{
    struct body *body;
    if (tree_look(directory, name, &body) != 0)
        return false;
    attributes_of(body, attributes);
    body_let_go(body, 1, false);
    return true;
}

/* From a sticky directory a name is taken by the owner of either. If there is nothing to take away, the tree says so. */
static int may_take(fuse_req_t request, fuse_ino_t directory, const char *name)
{
    struct stat above, below;
    int answer = allowed(request, directory, W_OK | X_OK, &above);
    if (answer != 0 || !(above.st_mode & S_ISVTX) || is_owner(request, &above))
        return answer;
    return !found(directory, name, &below) || is_owner(request, &below) ? 0 : EPERM;
}

int modes_take(fuse_req_t request, fuse_ino_t directory, const char *name)
{
    return tested ? counted(may_take(request, directory, name)) : 0;
}

/* A directory that gets another one above it is written to: its dot-dot changes. */
static int may_leave(fuse_req_t request, fuse_ino_t directory, const char *name)
{
    struct stat moved;
    if (!found(directory, name, &moved) || !S_ISDIR(moved.st_mode))
        return 0;
    return may(request, &moved, W_OK) ? 0 : EACCES;
}

static int may_move(fuse_req_t request, fuse_ino_t old_directory, const char *old_name, fuse_ino_t directory,
                    const char *name, unsigned flags)
{
    int answer = may_take(request, old_directory, old_name);
    if (answer == 0)
        answer = may_take(request, directory, name);
    if (answer == 0 && old_directory != directory)
        answer = may_leave(request, old_directory, old_name);
    if (answer == 0 && old_directory != directory && flags & GB_EXCHANGE)
        answer = may_leave(request, directory, name);
    return answer;
}

int modes_move(fuse_req_t request, fuse_ino_t old_directory, const char *old_name, fuse_ino_t directory, const char *name,
               unsigned flags)
{
    return tested ? counted(may_move(request, old_directory, old_name, directory, name, flags)) : 0;
}

/* Times are set to now by whoever may write, to others by the owner. */
static int may_set_times(fuse_req_t request, const struct stat *of, int set)
{
    const int both = FUSE_SET_ATTR_ATIME_NOW | FUSE_SET_ATTR_MTIME_NOW;
    if (!(set & (FUSE_SET_ATTR_ATIME | FUSE_SET_ATTR_MTIME | both)) || is_owner(request, of))
        return 0;
    if ((set & both) != both)
        return EPERM;
    return may(request, of, W_OK) ? 0 : EACCES;
}

/* The owner gives a file to no other owner, and to no group but its own. */
static bool may_give(fuse_req_t request, const struct stat *of, const struct stat *wanted, int set)
{
    if (is_root(request))
        return true;
    if (set & FUSE_SET_ATTR_UID && wanted->st_uid != of->st_uid)
        return false;
    return !(set & FUSE_SET_ATTR_GID) || wanted->st_gid == of->st_gid || has_group(request, wanted->st_gid);
}

/* Before another than root writes to a file that sets an identity, the kernel asks in its name that it set none. */
static bool writes(fuse_req_t request, const struct stat *of, const struct stat *wanted, int set)
{
    const int others = FUSE_SET_ATTR_UID | FUSE_SET_ATTR_GID | FUSE_SET_ATTR_SIZE;
    mode_t left = mode_behind_change(of->st_mode);
    if (set & others || left == of->st_mode || (wanted->st_mode & 07777) != (left & 07777))
        return false;
    return may(request, of, W_OK);
}

static int may_set(fuse_req_t request, const struct stat *of, const struct stat *wanted, int set, bool is_open)
{
    const int owners = FUSE_SET_ATTR_MODE | FUSE_SET_ATTR_UID | FUSE_SET_ATTR_GID;
    if (set & owners && !is_owner(request, of) && !writes(request, of, wanted, set))
        return EPERM;
    if (!may_give(request, of, wanted, set))
        return EPERM;
    if (set & FUSE_SET_ATTR_SIZE && !is_open && !may(request, of, W_OK))
        return EACCES;
    return may_set_times(request, of, set);
}

int modes_set(fuse_req_t request, fuse_ino_t number, struct stat *wanted, int set, bool is_open)
{
    struct stat of;
    if (!tested)
        return 0;
    int answer = attributes_by(number, &of);
    if (answer != 0)
        return answer;
    gid_t group = set & FUSE_SET_ATTR_GID ? wanted->st_gid : of.st_gid;
    if (set & FUSE_SET_ATTR_MODE && wanted->st_mode & S_ISGID && !is_root(request) && !has_group(request, group))
        wanted->st_mode &= ~(mode_t)S_ISGID;
    return counted(may_set(request, &of, wanted, set, is_open));
}

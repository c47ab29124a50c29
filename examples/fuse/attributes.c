#define FUSE_USE_VERSION 31
#include "attributes.h"
#include <string.h>

void attributes_of(struct body *body, struct stat *attributes)
{
    memset(attributes, 0, sizeof *attributes);
    pthread_mutex_lock(&body->lock);
    attributes->st_ino = body->number;
    attributes->st_mode = body->mode;
    attributes->st_nlink = body->names;
    attributes->st_uid = body->owner;
    attributes->st_gid = body->group;
    attributes->st_size = (off_t)body->size;
    attributes->st_blocks = (blkcnt_t)(body->pages.blocks * (PAGE / 512));
    attributes->st_blksize = PAGE;
    attributes->st_atim = body->read;
    attributes->st_mtim = body->written;
    attributes->st_ctim = body->changed;
    pthread_mutex_unlock(&body->lock);
}

struct fuse_entry_param entry_of(struct body *body)
{
    struct fuse_entry_param entry;
    memset(&entry, 0, sizeof entry);
    entry.ino = body->number;
    attributes_of(body, &entry.attr);
    return entry;
}

mode_t mode_behind_change(mode_t mode)
{
    if (!S_ISREG(mode))
        return mode;
    return mode & ~(mode_t)(mode & S_IXGRP ? S_ISUID | S_ISGID : S_ISUID);
}

void written_by(struct body *body, uid_t by)
{
    if (by != 0)
        body->mode = mode_behind_change(body->mode);
}

static struct timespec time_of(struct timespec was, struct timespec wanted, int is_set, int is_now)
{
    if (is_now)
        return now();
    return is_set ? wanted : was;
}

/* A mode that is set together with an owner is what is left. */
void set_attributes(struct body *body, const struct stat *wanted, int set, uid_t by)
{
    pthread_mutex_lock(&body->lock);
    if (set & FUSE_SET_ATTR_UID)
        body->owner = wanted->st_uid;
    if (set & FUSE_SET_ATTR_GID)
        body->group = wanted->st_gid;
    if (set & (FUSE_SET_ATTR_UID | FUSE_SET_ATTR_GID))
        body->mode = mode_behind_change(body->mode);
    if (set & FUSE_SET_ATTR_MODE)
        body->mode = (body->mode & S_IFMT) | (wanted->st_mode & 07777);
    if (set & FUSE_SET_ATTR_SIZE) {
        written_by(body, by);
        body_resize(body, (uint64_t)wanted->st_size);
    }
    body->read = time_of(body->read, wanted->st_atim, set & FUSE_SET_ATTR_ATIME, set & FUSE_SET_ATTR_ATIME_NOW);
    body->written = time_of(body->written, wanted->st_mtim, set & FUSE_SET_ATTR_MTIME, set & FUSE_SET_ATTR_MTIME_NOW);
    body->changed = now();
    pthread_mutex_unlock(&body->lock);
}

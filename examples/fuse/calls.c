/* What the kernel asks of the file system, each by a call of libfuse's. */
#define FUSE_USE_VERSION 31
#include "calls.h"
#include "attributes.h"
#include "listings.h"
#include "modes.h"
#include "tree.h"
#include <errno.h>
#include <fuse_lowlevel.h>
#include <pthread.h>
#include <signal.h>
#include <stdio.h>
#include <stdlib.h>
#include <string.h>
#include <sys/statvfs.h>

/* The caller's use of the body becomes the kernel's, until that forgets it. */
static void reply_body(fuse_req_t request, struct body *body)
{
    struct fuse_entry_param entry = entry_of(body);
    if (fuse_reply_entry(request, &entry) != 0)
        body_let_go(body, 1, false);
}

static void reply(fuse_req_t request, int answer, struct body *body)
{
    if (answer == 0)
        reply_body(request, body);
    else
        fuse_reply_err(request, answer);
}

static void fs_lookup(fuse_req_t request, fuse_ino_t parent, const char *name)
{
    struct body *body;
    int answer = modes_search(request, parent);
    if (answer == 0)
        answer = tree_look(parent, name, &body);
    reply(request, answer, body);
}

static void forget(uint64_t number, uint64_t times)
{
    struct body *body = body_of(number);
    if (body)
        body_let_go(body, times + 1, false);
}

static void fs_forget(fuse_req_t request, fuse_ino_t number, uint64_t times)
{
    forget(number, times);
    fuse_reply_none(request);
}

static void fs_forget_all(fuse_req_t request, size_t count, struct fuse_forget_data *all)
{
    for (size_t i = 0; i < count; i++)
        forget(all[i].ino, all[i].nlookup);
    fuse_reply_none(request);
}

static void fs_getattr(fuse_req_t request, fuse_ino_t number, struct fuse_file_info *file)
{
    struct body *body = body_of(number);
    struct stat attributes;
    (void)file;
    if (!body) {
        fuse_reply_err(request, ESTALE);
        return;
    }
    attributes_of(body, &attributes);
    body_let_go(body, 1, false);
    fuse_reply_attr(request, &attributes, 0);
}

static void fs_setattr(fuse_req_t request, fuse_ino_t number, struct stat *wanted, int set, struct fuse_file_info *file)
{
    int answer = modes_set(request, number, wanted, set, file);
    struct body *body = answer == 0 ? body_of(number) : NULL;
    if (answer != 0) {
        fuse_reply_err(request, answer);
        return;
    }
    if (body) {
        set_attributes(body, wanted, set, fuse_req_ctx(request)->uid);
        body_let_go(body, 1, false);
    }
    fs_getattr(request, number, file);
}

/* What makes an inode. */

static int make(fuse_req_t request, mode_t mode, uint64_t parent, const char *name, const char *text,
                struct body **body)
{
    const struct fuse_ctx *caller = fuse_req_ctx(request);
    int answer = modes_make(request, parent);
    return answer != 0 ? answer : tree_make(mode, caller->uid, caller->gid, parent, name, text, body);
}

static void make_and_reply(fuse_req_t request, mode_t mode, uint64_t parent, const char *name, const char *text)
{
    struct body *body;
    int answer = make(request, mode, parent, name, text, &body);
    reply(request, answer, body);
}

static void fs_mkdir(fuse_req_t request, fuse_ino_t parent, const char *name, mode_t mode)
{
    make_and_reply(request, S_IFDIR | mode, parent, name, NULL);
}

static void fs_mknod(fuse_req_t request, fuse_ino_t parent, const char *name, mode_t mode, dev_t device)
{
    (void)device;
    if (S_ISREG(mode))
        make_and_reply(request, mode, parent, name, NULL);
    else
        fuse_reply_err(request, EPERM);
}

static void fs_symlink(fuse_req_t request, const char *text, fuse_ino_t parent, const char *name)
{
    make_and_reply(request, S_IFLNK | 0777, parent, name, text);
}

/* An open file is a user of its body, until fs_release. */
static void open_body(struct body *body, struct fuse_file_info *file)
{
    body_keep(body);
    file->fh = (uintptr_t)body;
}

static struct body *body_in(const struct fuse_file_info *file)
{
    return (struct body *)(uintptr_t)file->fh;
}

static void fs_create(fuse_req_t request, fuse_ino_t parent, const char *name, mode_t mode, struct fuse_file_info *file)
{
    struct body *body;
    int answer = make(request, S_IFREG | mode, parent, name, NULL, &body);
    if (answer != 0) {
        fuse_reply_err(request, answer);
        return;
    }
    open_body(body, file);
    struct fuse_entry_param entry = entry_of(body);
    if (fuse_reply_create(request, &entry, file) != 0)
        body_let_go(body, 2, false);
}

/* What moves and takes away names. */

static void fs_unlink(fuse_req_t request, fuse_ino_t parent, const char *name)
{
    int answer = modes_take(request, parent, name);
    fuse_reply_err(request, answer != 0 ? answer : tree_unlink(parent, name));
}

static void fs_rmdir(fuse_req_t request, fuse_ino_t parent, const char *name)
{
    int answer = modes_take(request, parent, name);
    fuse_reply_err(request, answer != 0 ? answer : tree_rmdir(parent, name));
}

static void fs_rename(fuse_req_t request, fuse_ino_t old_parent, const char *old_name, fuse_ino_t parent, const char *name,
                      unsigned flags)
{
    int answer = modes_move(request, old_parent, old_name, parent, name, flags);
    fuse_reply_err(request, answer != 0 ? answer : tree_rename(old_parent, old_name, parent, name, flags));
}

static void fs_link(fuse_req_t request, fuse_ino_t number, fuse_ino_t parent, const char *name)
{
    struct body *body;
    int answer = modes_make(request, parent);
    if (answer == 0)
        answer = tree_link(number, parent, name, &body);
    reply(request, answer, body);
}

/* What asks. */

static void fs_readlink(fuse_req_t request, fuse_ino_t number)
{
    char text[LONGEST_PATH + 1];
    struct body *body = body_of(number);
    if (!body) {
        fuse_reply_err(request, ESTALE);
        return;
    }
    tree_readlink(body, text);
    body_let_go(body, 1, false);
    fuse_reply_readlink(request, text);
}

/* Files are as many as the cache was made for. */
static void fs_statfs(fuse_req_t request, fuse_ino_t number)
{
    long bodies = bodies_count();
    uint64_t most = pages_most(), used = pages_used();
    struct statvfs system;
    (void)number;
    memset(&system, 0, sizeof system);
    system.f_bsize = system.f_frsize = PAGE;
    system.f_blocks = most;
    system.f_bfree = system.f_bavail = used < most ? most - used : 0;
    system.f_files = TREE_INODES;
    system.f_ffree = system.f_favail = bodies < TREE_INODES ? (fsfilcnt_t)(TREE_INODES - bodies) : 0;
    system.f_namemax = LONGEST_NAME;
    fuse_reply_statfs(request, &system);
}

/* What is about bodies alone. */

static void fs_open(fuse_req_t request, fuse_ino_t number, struct fuse_file_info *file)
{
    int answer = modes_open(request, number, file->flags);
    struct body *body = answer == 0 ? body_of(number) : NULL;
    if (!body) {
        fuse_reply_err(request, answer != 0 ? answer : ESTALE);
        return;
    }
    if (file->flags & O_TRUNC) {
        pthread_mutex_lock(&body->lock);
        written_by(body, fuse_req_ctx(request)->uid);
        body_resize(body, 0);
        pthread_mutex_unlock(&body->lock);
    }
    file->fh = (uintptr_t)body;
    if (fuse_reply_open(request, file) != 0)
        body_let_go(body, 1, false);
}

/* If modes aren't tested, the kernel needn't ask again. */
static void fs_access(fuse_req_t request, fuse_ino_t number, int mask)
{
    fuse_reply_err(request, modes_are_tested() ? modes_access(request, number, mask) : ENOSYS);
}

static void fs_release(fuse_req_t request, fuse_ino_t number, struct fuse_file_info *file)
{
    (void)number;
    body_let_go(body_in(file), 1, false);
    fuse_reply_err(request, 0);
}

static void fs_read(fuse_req_t request, fuse_ino_t number, size_t count, off_t from, struct fuse_file_info *file)
{
    struct body *body = body_in(file);
    char *bytes = malloc(count > 0 ? count : 1);
    (void)number;
    if (!bytes) {
        fuse_reply_err(request, ENOMEM);
        return;
    }
    pthread_mutex_lock(&body->lock);
    uint64_t left = (uint64_t)from < body->size ? body->size - (uint64_t)from : 0;
    count = count < left ? count : (size_t)left;
    pages_read(&body->pages, bytes, count, (uint64_t)from);
    pthread_mutex_unlock(&body->lock);
    fuse_reply_buf(request, bytes, count);
    free(bytes);
}

/* Pages that were made for bytes that had no room after all are given back. */
static void fs_write(fuse_req_t request, fuse_ino_t number, const char *bytes, size_t count, off_t at,
                     struct fuse_file_info *file)
{
    struct body *body = body_in(file);
    (void)number;
    pthread_mutex_lock(&body->lock);
    size_t written = pages_write(&body->pages, bytes, count, (uint64_t)at);
    uint64_t end = (uint64_t)at + written;
    if (written > 0) {
        written_by(body, fuse_req_ctx(request)->uid);
        body_resize(body, end > body->size ? end : body->size);
    }
    if (written < count)
        pages_cut(&body->pages, body->size);
    body->changed = now();
    pthread_mutex_unlock(&body->lock);
    if (written == 0 && count > 0)
        fuse_reply_err(request, ENOSPC);
    else
        fuse_reply_write(request, written);
}

/* Statistics: by a thread that waits for the signal, which is blocked in all others. */

void tell(void)
{
    tree_tell();
    modes_tell();
    fprintf(stderr, "pages: %llu; inodes: %ld\n", (unsigned long long)pages_used(), bodies_count());
}

static void *tell_at(void *signals)
{
    int signal;
    while (sigwait(signals, &signal) == 0)
        tell();
    return NULL;
}

/* The kernel walks a name that it keeps without a question, so it is to keep none if modes are tested here. */
static void fs_init(void *signals, struct fuse_conn_info *connection)
{
    pthread_t teller;
    if (modes_are_tested())
        connection->want &= ~(unsigned)FUSE_CAP_READDIRPLUS;
    if (pthread_create(&teller, NULL, tell_at, signals) == 0)
        pthread_detach(teller);
}

const struct fuse_lowlevel_ops calls = {
    .init = fs_init,
    .lookup = fs_lookup,
    .forget = fs_forget,
    .forget_multi = fs_forget_all,
    .getattr = fs_getattr,
    .setattr = fs_setattr,
    .mkdir = fs_mkdir,
    .mknod = fs_mknod,
    .symlink = fs_symlink,
    .create = fs_create,
    .unlink = fs_unlink,
    .rmdir = fs_rmdir,
    .rename = fs_rename,
    .link = fs_link,
    .readlink = fs_readlink,
    .opendir = fs_opendir,
    .readdir = fs_readdir,
    .readdirplus = fs_readdirplus,
    .releasedir = fs_releasedir,
    .statfs = fs_statfs,
    .open = fs_open,
    .access = fs_access,
    .release = fs_release,
    .read = fs_read,
    .write = fs_write,
};

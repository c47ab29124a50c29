/* A file system in memory whose names and tree are Gigbewu's, mounted by libfuse3.
 *
 * usage: gbfs [-o size=BYTES] [-o permissions] [libfuse's options] MOUNTPOINT
 *
 * The kernel asks for one name in a directory at a time, by the directory's inode number, and may keep none but
 * those of a listing (listings.c): so each name on a path is a look-up here, first by rows alone, and if these don't answer
 * under the lock. What the tree doesn't keep is in bodies (bodies.c). A body stays as long as the kernel may ask for its
 * number, also without a name.
 *
 * Of the library's calls with two paths both start in one directory, while the kernel names two. So a rename or a link
 * is made from the nearest directory above both (ways.c), and no two of them at once. No other lock of this program is
 * held over a call of the library: what a change took away, the library tells.
 *
 * All files together may have half as many bytes as the machine has memory, or as `size` says, in bytes or with k, m or g
 * behind it. Owners and modes are tested by the kernel with libfuse's option default_permissions, here with `permissions`
 * (modes.c), and else by nobody: then mount it for yourself alone. SIGUSR1 makes it tell how look-ups were answered, as it
 * does at its end.
 */
#define FUSE_USE_VERSION 31
#include "calls.h"
#include "modes.h"
#include "tree.h"
#include <gigbewu.h>
#include <signal.h>
#include <stddef.h>
#include <stdio.h>
#include <stdlib.h>
#include <string.h>
#include <unistd.h>

/* Bytes as a text says, with k, m or g behind it; 0 if it says nothing. */
static uint64_t bytes_of(const char *text)
{
    char *behind;
    uint64_t bytes = strtoull(text, &behind, 10);
    static const char units[] = "kmg";
    const char *unit = *behind ? strchr(units, *behind | ' ') : NULL;
    if (*behind && (!unit || behind[1]))
        return 0;
    return unit ? bytes << 10 * (unit - units + 1) : bytes;
}

/* The limit, the tree, and the body of the root. */
static int begin(const char *size)
{
    uint64_t half = (uint64_t)sysconf(_SC_PHYS_PAGES) * (uint64_t)sysconf(_SC_PAGESIZE) / 2;
    uint64_t bytes = size ? bytes_of(size) : half;
    if (bytes < PAGE) {
        fprintf(stderr, "gbfs: bad size\n");
        return 2;
    }
    struct body *root = body_new(S_IFDIR | 0755, getuid(), getgid());
    if (!root || tree_begin() != 0) {
        fprintf(stderr, "gbfs: no memory\n");
        return 3;
    }
    pages_limit(bytes / PAGE);
    bodies_begin();
    body_number(root, GB_ROOT);
    return 0;
}

static int serve(struct fuse_session *session, const struct fuse_cmdline_opts *options)
{
    int status = 1;
    if (fuse_set_signal_handlers(session) == 0) {
        if (fuse_session_mount(session, options->mountpoint) == 0) {
            fuse_daemonize(options->foreground);
            status = options->singlethread ? fuse_session_loop(session) : fuse_session_loop_mt(session, options->clone_fd);
            fuse_session_unmount(session);
        }
        fuse_remove_signal_handlers(session);
    }
    return status != 0;
}

static void help(const char *program)
{
    printf("usage: %s [-o size=BYTES] [-o permissions] [options] MOUNTPOINT\n", program);
    fuse_cmdline_help();
    fuse_lowlevel_help();
}

int main(int count, char **words)
{
    struct fuse_args arguments = FUSE_ARGS_INIT(count, words);
    struct fuse_cmdline_opts options;
    struct settings {
        char *size;
        int permissions;
    } settings = {NULL, 0};
    const struct fuse_opt known[] = {{"size=%s", offsetof(struct settings, size), 0},
                                     {"permissions", offsetof(struct settings, permissions), 1},
                                     FUSE_OPT_END};
    sigset_t signals;
    if (fuse_opt_parse(&arguments, &settings, known, NULL) != 0 || fuse_parse_cmdline(&arguments, &options) != 0)
        return 2;
    if (options.show_help || options.show_version || !options.mountpoint) {
        help(words[0]);
        return options.show_help || options.show_version ? 0 : 2;
    }
    sigemptyset(&signals);
    sigaddset(&signals, SIGUSR1);
    pthread_sigmask(SIG_BLOCK, &signals, NULL);
    if (settings.permissions)
        modes_begin();
    int status = begin(settings.size);
    if (status != 0)
        return status;
    struct fuse_session *session = fuse_session_new(&arguments, &calls, sizeof calls, &signals);
    if (!session)
        return 2;
    status = serve(session, &options);
    fuse_session_destroy(session);
    fuse_opt_free_args(&arguments);
    free(options.mountpoint);
    tell();
    tree_end();
    return status;
}

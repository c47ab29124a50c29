/* The kernel's tmpfs, by paths below a folder of /dev/shm: one system call a look-up (faccessat), and one a change. A file
 * is made by mknodat, which opens nothing, as the cache makes one. With -DOPENS it is made as programs make it: by openat,
 * and close. */
#define _GNU_SOURCE
#include "peer.h"
#include <fcntl.h>
#include <ftw.h>
#include <stdio.h>
#include <stdlib.h>
#include <string.h>
#include <sys/stat.h>
#include <unistd.h>

const char *const peer_name = "tmpfs";

static char folder[] = "/dev/shm/peer-XXXXXX";
static int top = -1;

void peer_begin(void)
{
    if (mkdtemp(folder))
        top = open(folder, O_DIRECTORY | O_RDONLY);
    if (top < 0) {
        perror(folder);
        exit(3);
    }
}

void peer_enter(void)
{
}

void peer_leave(void)
{
}

int peer_make(char kind, const char *path)
{
    if (kind == 'd')
        return mkdirat(top, path + 1, 0700) == 0;
#ifdef OPENS
    int file = openat(top, path + 1, O_CREAT | O_EXCL | O_WRONLY, 0600);
    return file >= 0 && close(file) == 0;
#else
    return mknodat(top, path + 1, S_IFREG | 0600, 0) == 0;
#endif
}

/* The text begins at the root, where the link has to stand, as it is relative here. */
int peer_link(const char *text, const char *path)
{
    return !strchr(path + 1, '/') && symlinkat(text + 1, top, path + 1) == 0;
}

int peer_rename(const char *old, const char *new)
{
    return renameat(top, old + 1, top, new + 1) == 0;
}

int peer_unlink(const char *path)
{
    return unlinkat(top, path + 1, 0) == 0;
}

int peer_look(const char *path, size_t length)
{
    (void)length;
    return faccessat(top, path + 1, F_OK, 0) == 0;
}

static int drop(const char *path, const struct stat *stat, int kind, struct FTW *walk)
{
    (void)stat, (void)kind, (void)walk;
    return remove(path);
}

void peer_end(void)
{
    nftw(folder, drop, 16, FTW_DEPTH | FTW_PHYS);
}

/* How long each call holds the lock for its dearest arguments, beside ordinary ones.
 *
 * usage: dearest BUCKETS | dearest tmpfs FOLDER
 *
 * The dearest path leads down DEPTH directories to a symbolic link, whose text leads down the same way to the next one,
 * and so on, 40 links in all; each text has as many names as 4,090 bytes hold. A change has it before its last name,
 * and a rename and a link have two such paths. The ordinary path has four names. Prints for each kind of call
 * microseconds of the processor, the least of RUNS runs, ordinary and dearest: of gb_try_ calls, nearly all of which is
 * under the lock, or of the same calls of the kernel's. At last the dearest look-up with its trail, and a list of a
 * directory of MANY names.
 */
#define _GNU_SOURCE
#include <fcntl.h>
#include <gigbewu.h>
#include <stdio.h>
#include <stdlib.h>
#include <string.h>
#include <sys/stat.h>
#include <time.h>
#include <unistd.h>

enum { LINKS = 40, LONGEST = 4090, DEPTH = 2040, RUNS = 5, MANY = 1000000, PLACES = 4096, ROOM = 32 << 20 };

struct path {
    char bytes[LONGEST + 64];
    size_t len;
};

static struct gb_pass pass;
static struct gb_found found;
static struct gb_gone gone;
static int folder = -1;
static char *room;

static void must(int right, const char *what)
{
    if (!right) {
        fprintf(stderr, "dearest: %s fails\n", what);
        exit(1);
    }
}

static double now(void)
{
    struct timespec time;
    clock_gettime(CLOCK_THREAD_CPUTIME_ID, &time);
    return (double)time.tv_sec * 1e6 + (double)time.tv_nsec / 1e3;
}

/* x/x/../x/END, from the root. */
static struct path down(size_t names, const char *end)
{
    struct path path;
    for (size_t at = 0; at < names; at++)
        memcpy(path.bytes + 2 * at, "x/", 2);
    strcpy(path.bytes + 2 * names, end);
    path.len = strlen(path.bytes);
    return path;
}

enum kind { LOOK, STAT, READLINK, LIST, MKDIR, RMDIR, CREATE, LINK, RENAME, UNLINK, SYMLINK, KINDS };

static const char *const names[KINDS] = {"look", "stat", "readlink", "list", "mkdir", "rmdir",
                                         "create", "link", "rename", "unlink", "symlink"};

static int in_library(enum kind kind, const struct path *one, const struct path *other)
{
    const char *path = one->bytes;
    size_t len = one->len;
    switch (kind) {
    case LOOK: return gb_try_look(&pass, GB_ROOT, path, len, GB_FOLLOW, &found);
    case STAT: return gb_try_stat(&pass, GB_ROOT, path, len, &found);
    case READLINK: return gb_try_readlink(&pass, GB_ROOT, path, len, room, ROOM, &found);
    case LIST: return gb_try_list(&pass, GB_ROOT, path, len, room, ROOM, &found);
    case MKDIR: return gb_try_mkdir(&pass, GB_ROOT, path, len, &found);
    case RMDIR: return gb_try_rmdir(&pass, GB_ROOT, path, len, &found, &gone);
    case CREATE: return gb_try_create(&pass, GB_ROOT, path, len, &found);
    case LINK: return gb_try_link(&pass, GB_ROOT, path, len, other->bytes, other->len, &found);
    case RENAME: return gb_try_rename(&pass, GB_ROOT, path, len, other->bytes, other->len, 0, &found, &gone);
    case UNLINK: return gb_try_unlink(&pass, GB_ROOT, path, len, &found, &gone);
    default: return gb_try_symlink(&pass, GB_ROOT, "x", 1, path, len, &found);
    }
}

static int in_kernel(enum kind kind, const struct path *one, const struct path *other)
{
    struct stat told;
    const char *path = one->bytes;
    switch (kind) {
    case LOOK: return faccessat(folder, path, F_OK, 0);
    case STAT: return fstatat(folder, path, &told, 0);
    case READLINK: return readlinkat(folder, path, room, ROOM) < 0;
    case LIST: return close(openat(folder, path, O_RDONLY | O_DIRECTORY));
    case MKDIR: return mkdirat(folder, path, 0700);
    case RMDIR: return unlinkat(folder, path, AT_REMOVEDIR);
    case CREATE: return mknodat(folder, path, S_IFREG | 0600, 0);
    case LINK: return linkat(folder, path, folder, other->bytes, 0);
    case RENAME: return renameat(folder, path, folder, other->bytes);
    case UNLINK: return unlinkat(folder, path, 0);
    default: return symlinkat("x", folder, path);
    }
}

static int call(enum kind kind, const struct path *one, const struct path *other)
{
    return folder < 0 ? in_library(kind, one, other) : in_kernel(kind, one, other);
}

static double timed(enum kind kind, const struct path *one, const struct path *other)
{
    double begin = now();
    must(call(kind, one, other) == 0, names[kind]);
    return now() - begin;
}

/* The directories, and the links in the last of them. */
static void make_tree(void)
{
    for (size_t at = 0; at < DEPTH; at++) {
        struct path path = down(at, "x");
        timed(MKDIR, &path, NULL);
    }
    for (int at = 0; at < LINKS; at++) {
        char name[16], next[16];
        snprintf(name, sizeof name, "%c%c", 'a' + at / 26, 'a' + at % 26);
        snprintf(next, sizeof next, at + 1 < LINKS ? "%c%c" : ".", 'a' + (at + 1) / 26, 'a' + (at + 1) % 26);
        struct path text = down(DEPTH, next), path = down(DEPTH, name);
        /* Texts begin at the root, which on the kernel's side is where the folder is mounted for this process. */
        memmove(text.bytes + 1, text.bytes, text.len + 1);
        text.bytes[0] = '/';
        int answer = folder < 0 ? gb_try_symlink(&pass, GB_ROOT, text.bytes, text.len + 1, path.bytes, path.len, &found)
                                : symlinkat(text.bytes, folder, path.bytes);
        must(answer == 0, "a link");
    }
}

/* The calls of a kind: to look at what stands below `front`, or to make it and take it away. */
static void time_all(size_t depth, const char *front, double *least)
{
    struct path it = down(depth, front), file = it, other = it, third = it;
    strcat(file.bytes, "/f"), strcat(other.bytes, "/g"), strcat(third.bytes, "/h");
    file.len += 2, other.len += 2, third.len += 2;
    struct path link = file;
    link.bytes[link.len - 1] = 'l';
    must(call(SYMLINK, &link, NULL) == 0, "symlink");
    for (int run = 0; run < RUNS; run++) {
        double took[KINDS];
        took[LOOK] = timed(LOOK, &it, NULL), took[STAT] = timed(STAT, &it, NULL);
        took[READLINK] = timed(READLINK, &link, NULL), took[LIST] = timed(LIST, &it, NULL);
        took[MKDIR] = timed(MKDIR, &file, NULL), took[RMDIR] = timed(RMDIR, &file, NULL);
        took[CREATE] = timed(CREATE, &file, NULL), took[LINK] = timed(LINK, &file, &other);
        took[RENAME] = timed(RENAME, &file, &third), took[UNLINK] = timed(UNLINK, &third, NULL);
        must(call(UNLINK, &other, NULL) == 0, "unlink");
        took[SYMLINK] = timed(SYMLINK, &file, NULL);
        must(call(UNLINK, &file, NULL) == 0, "unlink");
        for (int kind = 0; kind < KINDS; kind++)
            least[kind] = !run || took[kind] < least[kind] ? took[kind] : least[kind];
    }
    must(call(UNLINK, &link, NULL) == 0, "unlink");
}

/* The dearest look-up with its trail, which is compared with itself for each name. */
static void look_along(void)
{
    static uint64_t trail[PLACES];
    struct path it = down(DEPTH, "aa");
    double least = 0;
    for (int run = 0; run < RUNS; run++) {
        double begun = now();
        int answer = gb_try_look_along(&pass, GB_ROOT, it.bytes, it.len, GB_FOLLOW, trail, PLACES, &found);
        double took = now() - begun;
        must(answer == 0, "gb_try_look_along");
        least = !run || took < least ? took : least;
    }
    printf("look along a trail of %d directories: %.1f ms\n", (int)found.count, least / 1e3);
}

static void list_many(void)
{
    char name[32];
    for (uint64_t at = 0; at < MANY; at++) {
        size_t len = (size_t)snprintf(name, sizeof name, "/%llu", (unsigned long long)at);
        must(gb_try_create(&pass, GB_ROOT, name, len, &found) == 0, "gb_try_create");
    }
    struct path root = down(0, "/");
    printf("list of %d names: %.1f ms\n", MANY, timed(LIST, &root, NULL) / 1e3);
}

int main(int count, char **words)
{
    int is_kernel = count == 3 && strcmp(words[1], "tmpfs") == 0;
    must(count == 2 || is_kernel, "its usage");
    room = malloc(ROOM);
    if (is_kernel)
        must((folder = open(words[2], O_PATH | O_DIRECTORY)) >= 0 && chroot(words[2]) == 0, "chroot");
    else
        must(gb_cache_new(strtoull(words[1], NULL, 10), 1 << 20, &pass) == 0, "gb_cache_new");
    double ordinary[KINDS], dearest[KINDS];
    make_tree();
    time_all(3, "x", ordinary);
    time_all(DEPTH, "aa", dearest);
    printf("%-10s%12s%12s\n", "", "ordinary us", "dearest ms");
    for (int kind = 0; kind < KINDS; kind++)
        printf("%-10s%12.2f%12.2f\n", names[kind], ordinary[kind], dearest[kind] / 1e3);
    if (!is_kernel) {
        look_along();
        list_many();
    }
    return 0;
}

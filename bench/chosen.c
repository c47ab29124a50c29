/* Makes files of given names, through the library for C or in a folder of the kernel's, and prints in nanoseconds: the
 * medians of the last 2,000 makes, of 2,000 look-ups under the lock and of 2,000 removals, and the processor's time of
 * the longest make.
 *
 * usage: chosen COUNT FOLDER [DIRECTORIES] < NAMES
 *
 * Names stand one a line. FOLDER is - for the library. The files are made in the root (the folder), or in this many
 * directories in it, one after the other. Files are looked up and removed here and there.
 */
#define _GNU_SOURCE
#include <fcntl.h>
#include <gigbewu.h>
#include <stdio.h>
#include <stdlib.h>
#include <string.h>
#include <sys/stat.h>
#include <time.h>
#include <unistd.h>

enum { SOME = 2000, MOST_BUCKETS = 1 << 18, MOST_INODES = 1 << 20 };

struct name {
    char *bytes;
    size_t len;
};

static struct gb_pass pass;
static int folder = -1;

static uint64_t now(clockid_t clock)
{
    struct timespec time;
    clock_gettime(clock, &time);
    return (uint64_t)time.tv_sec * 1000000000u + (uint64_t)time.tv_nsec;
}

static void must(int right, const char *what)
{
    if (!right) {
        fprintf(stderr, "chosen: %s fails\n", what);
        exit(1);
    }
}

/* A directory's number in the library, or its descriptor in the kernel. */
static uint64_t make_directory(uint64_t number)
{
    struct gb_found found;
    char name[32];
    size_t len = (size_t)snprintf(name, sizeof name, "/%llu", (unsigned long long)number);
    if (folder < 0) {
        must(gb_try_mkdir(&pass, GB_ROOT, name, len, &found) == 0, "gb_try_mkdir");
        return found.number;
    }
    must(mkdirat(folder, name + 1, 0700) == 0, "mkdirat");
    int made = openat(folder, name + 1, O_PATH | O_DIRECTORY);
    must(made >= 0, "openat");
    return (uint64_t)made;
}

static void make(uint64_t dir, const struct name *name)
{
    struct gb_found found;
    if (folder < 0)
        must(gb_try_create(&pass, dir, name->bytes, name->len, &found) == 0, "gb_try_create");
    else
        must(mknodat((int)dir, name->bytes, S_IFREG | 0600, 0) == 0, "mknodat");
}

static void look(uint64_t dir, const struct name *name)
{
    struct gb_found found;
    struct stat told;
    if (folder < 0)
        must(gb_try_look(&pass, dir, name->bytes, name->len, GB_NO_FOLLOW, &found) == 0, "gb_try_look");
    else
        must(fstatat((int)dir, name->bytes, &told, AT_SYMLINK_NOFOLLOW) == 0, "fstatat");
}

static void take(uint64_t dir, const struct name *name)
{
    struct gb_found found;
    struct gb_gone gone;
    if (folder < 0)
        must(gb_try_unlink(&pass, dir, name->bytes, name->len, &found, &gone) == 0, "gb_try_unlink");
    else
        must(unlinkat((int)dir, name->bytes, 0) == 0, "unlinkat");
}

static struct name *read_names(uint64_t count)
{
    struct name *names = malloc(count * sizeof *names);
    char line[512];
    for (uint64_t at = 0; at < count; at++) {
        must(fgets(line, sizeof line, stdin) != NULL, "reading a name");
        names[at].len = strcspn(line, "\n");
        names[at].bytes = strndup(line, names[at].len);
    }
    return names;
}

static int later(const void *one, const void *other)
{
    uint64_t first = *(const uint64_t *)one, second = *(const uint64_t *)other;
    return (first > second) - (first < second);
}

static uint64_t median(uint64_t *times, uint64_t count)
{
    qsort(times, count, sizeof *times, later);
    return times[count / 2];
}

/* The median time of a call for some names from here and there. */
static uint64_t timed(void (*call)(uint64_t, const struct name *), const uint64_t *dirs, uint64_t in_each,
                      const struct name *names, uint64_t count)
{
    static uint64_t times[SOME];
    uint64_t some = count < SOME ? count : SOME;
    for (uint64_t done = 0; done < some; done++) {
        uint64_t at = done * (count / some), begin = now(CLOCK_MONOTONIC);
        call(dirs[at / in_each], &names[at]);
        times[done] = now(CLOCK_MONOTONIC) - begin;
    }
    return median(times, some);
}

int main(int count, char **words)
{
    must(count == 3 || count == 4, "its usage");
    uint64_t makes = strtoull(words[1], NULL, 10), many = count == 4 ? strtoull(words[3], NULL, 10) : 0;
    if (strcmp(words[2], "-") != 0)
        must((folder = open(words[2], O_PATH | O_DIRECTORY)) >= 0, "open");
    else
        must(gb_cache_new(MOST_BUCKETS, MOST_INODES, &pass) == 0, "gb_cache_new");
    struct name *names = read_names(makes);
    uint64_t *dirs = malloc((many + 1) * sizeof *dirs), in_each = many ? (makes + many - 1) / many : makes;
    static uint64_t last[SOME];
    uint64_t longest = 0;
    dirs[0] = folder < 0 ? GB_ROOT : (uint64_t)folder;
    for (uint64_t at = 0; at < many; at++)
        dirs[at] = make_directory(at);
    for (uint64_t made = 0; made < makes; made++) {
        uint64_t used = now(CLOCK_THREAD_CPUTIME_ID), begin = now(CLOCK_MONOTONIC);
        make(dirs[made / in_each], &names[made]);
        last[made % SOME] = now(CLOCK_MONOTONIC) - begin;
        used = now(CLOCK_THREAD_CPUTIME_ID) - used;
        longest = used > longest ? used : longest;
    }
    uint64_t made = median(last, makes < SOME ? makes : SOME);
    uint64_t looked = timed(look, dirs, in_each, names, makes);
    uint64_t taken = timed(take, dirs, in_each, names, makes);
    printf("%llu %llu %llu %llu\n", (unsigned long long)made, (unsigned long long)looked, (unsigned long long)taken,
           (unsigned long long)longest);
    return 0;
}

/* What the rows alone tell of a readlink, how many rows were evicted, and how many are in use: with good and bad
 * arguments, by one thread.
 * Prints each answer that is not as it should be, and last how many were.
 */
#include <errno.h>
#include <gigbewu.h>
#include <stdio.h>
#include <string.h>

enum { LONGEST_NAME = 255, FILES = 64 };

static struct gb_pass pass, blank;
static struct gb_found found;
static int wrong;

static void is(const char *what, const char *detail, int64_t got, int64_t want)
{
    if (got == want)
        return;
    wrong++;
    printf("%s %s: %lld, not %lld\n", what, detail, (long long)got, (long long)want);
}

static int readlink_fast(const char *path, size_t len)
{
    return gb_readlink_fast(&pass, GB_ROOT, path, len, &found);
}

static void fill(const char *path)
{
    gb_try_look(&pass, GB_ROOT, path, strlen(path), GB_NO_FOLLOW, &found);
}

/* There are a directory d (2) with a file f (3), and a link l (4) to it. */
static void make_all(void)
{
    is("mkdir", "", gb_try_mkdir(&pass, GB_ROOT, "/d", 2, &found), 0);
    is("create", "", gb_try_create(&pass, GB_ROOT, "/d/f", 4, &found), 0);
    is("symlink", "", gb_try_symlink(&pass, GB_ROOT, "d/f", 3, "/l", 2, &found), 0);
}

static void read_by_rows(void)
{
    is("a link", "without a row", readlink_fast("/l", 2), GB_AGAIN);
    is("a link", "without a row: why", found.why, GB_WHY_MISS);
    is("a link", "without a row: the rest", (int64_t)(found.number + found.count + found.at + found.kind), 0);
    fill("/l");
    is("a link", "with a row", readlink_fast("/l", 2), 0);
    is("a link", "number", (int64_t)found.number, 4);
    is("a link", "kind", found.kind, GB_LINK);
    is("a link", "at", (int64_t)found.at, 3);
    fill("/d/f");
    is("a file", "with a row", readlink_fast("/d/f", 4), EINVAL);
    is("a file", "at", (int64_t)found.at, 3);
    is("a file", "number", (int64_t)found.number, 0);
    is("a directory", "with a row", readlink_fast("/d", 2), EINVAL);
    is("a name", "beneath a file", readlink_fast("/d/f/x", 6), ENOTDIR);
    fill("/no");
    is("a missing name", "with a row", readlink_fast("/no", 3), ENOENT);
}

static void try_bad(void)
{
    static char name[LONGEST_NAME + 1];
    struct gb_found marked = {7, 7, 7, 7, 7};
    uint64_t evictions = 7, rows = 7;
    memset(name, 'n', sizeof name);
    is("readlink_fast", "no bytes", readlink_fast("", 0), ENOENT);
    is("readlink_fast", "a zero byte", readlink_fast("l\0", 2), EINVAL);
    is("readlink_fast", "a name of 256", readlink_fast(name, sizeof name), ENAMETOOLONG);
    is("readlink_fast", "a name of 255", readlink_fast(name, LONGEST_NAME), GB_AGAIN);
    found = marked;
    is("readlink_fast", "a blank pass", gb_readlink_fast(&blank, GB_ROOT, "/l", 2, &found), GB_BAD_PASS);
    is("readlink_fast", "a blank pass writes nothing", memcmp(&found, &marked, sizeof found), 0);
    is("counts", "a blank pass", gb_counts(&blank, &evictions), GB_BAD_PASS);
    is("counts", "a blank pass writes nothing", (int64_t)evictions, 7);
    is("rows_in_use", "a blank pass", gb_rows_in_use(&blank, &rows), GB_BAD_PASS);
    is("rows_in_use", "a blank pass writes nothing", (int64_t)rows, 7);
}

static void are_in_use(const char *detail, uint64_t want)
{
    uint64_t rows = UINT64_MAX;
    is("rows_in_use", detail, gb_rows_in_use(&pass, &rows), 0);
    is("rows_in_use", detail, (int64_t)rows, (int64_t)want);
}

/* A name is counted once, also one that is missing; a link's text has a row of its own. */
static void count_rows(void)
{
    uint64_t emptied = 7;
    are_in_use("at first", 0);
    make_all();
    are_in_use("after changes alone", 0);
    fill("/d");
    are_in_use("after a look-up", 1);
    fill("/d");
    fill("/no");
    are_in_use("after one of another name", 2);
    is("look", "through a link", gb_try_look(&pass, GB_ROOT, "/l", 2, GB_FOLLOW, &found), 0);
    are_in_use("after one through a link", 5);
    is("shrink", "one", gb_try_shrink(&pass, 1, &emptied), 0);
    are_in_use("after a row is emptied", 4);
    is("shrink", "all", gb_try_shrink(&pass, UINT64_MAX, &emptied), 0);
    is("shrink", "emptied", (int64_t)emptied, 4);
    are_in_use("after all are emptied", 0);
}

/* Names without end in the four rows of one bucket. */
static void evict(void)
{
    char path[] = "/00";
    uint64_t evictions = 7;
    is("cache_new", "of one bucket", gb_cache_new(1, 1, &pass), 0);
    is("counts", "at first", gb_counts(&pass, &evictions), 0);
    is("counts", "no evictions", (int64_t)evictions, 0);
    for (int i = 0; i < FILES; i++) {
        path[1] = (char)('0' + i / 10);
        path[2] = (char)('0' + i % 10);
        fill(path);
    }
    is("counts", "at last", gb_counts(&pass, &evictions), 0);
    is("counts", "evictions", (int64_t)evictions, FILES - 4);
    are_in_use("of four rows", 4);
    is("close", "", gb_close(&pass), 0);
}

int main(void)
{
    is("cache_new", "", gb_cache_new(256, 8, &pass), 0);
    count_rows();
    read_by_rows();
    try_bad();
    is("close", "", gb_close(&pass), 0);
    evict();
    printf("%d answers by rows are not as they should be\n", wrong);
    return wrong != 0;
}

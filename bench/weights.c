/* What the cache takes of memory and time, by the functions of gigbewu.h.
 *
 * usage: weights table BUCKETS | pass | files LENGTH COUNT | names LENGTH COUNT | rows COUNT | deep COUNT | shrink COUNT |
 *                page COUNT
 *
 * It prints two numbers. Of a table: the bytes of a cache of this many buckets, and the nanoseconds of making and
 * closing it. Of a pass: the bytes of one more, and the nanoseconds of splitting and closing it. Of files: the bytes of
 * a file with a name of LENGTH bytes, and the nanoseconds of making it. Of names: the bytes of one name more, COUNT
 * names of LENGTH bytes of 20 files, and the nanoseconds of a link. Of rows: the bytes that a row takes more once it is
 * filled, and the nanoseconds of the look-up that fills it. Of deep: the nanoseconds of a rename of a directory into one
 * below COUNT others, and of one that is refused since it is beneath itself. Of shrink: how many rows were emptied under
 * one hold, and the nanoseconds of that. Of page: the nanoseconds of a page of 128 entries from somewhere in a directory
 * of COUNT files, the median and the 99th in a hundred.
 */
#include <errno.h>
#include <gigbewu.h>
#include <malloc.h>
#include <stdio.h>
#include <stdlib.h>
#include <string.h>
#include <time.h>

enum { BUCKETS = 1024, MOST_INODES = 1 << 20, FILES = 20, PASSES = 100, LONGEST = 255, PAGE = 128, PAGES = 2000 };

static struct gb_gate gate;
static struct gb_pass pass;
static struct gb_found found;

static void must(int right, const char *what)
{
    if (!right) {
        fprintf(stderr, "weights: %s fails\n", what);
        exit(1);
    }
}

static long long now(void)
{
    struct timespec time;
    clock_gettime(CLOCK_MONOTONIC, &time);
    return time.tv_sec * 1000000000ll + time.tv_nsec;
}

/* The bytes that the program has from malloc. */
static long long bytes(void)
{
    struct mallinfo2 info = mallinfo2();
    return (long long)(info.uordblks + info.hblkhd);
}

static void begin(unsigned long long buckets, unsigned long long names)
{
    must(gb_cache_with_names(buckets, MOST_INODES, names, &pass) == 0, "gb_cache_with_names");
}

static void table(unsigned long long buckets)
{
    long long before = bytes(), started = now();
    begin(buckets, MOST_INODES);
    long long taken = bytes() - before;
    must(gb_close(&pass) == 0, "gb_close");
    printf("%lld %lld\n", taken, now() - started);
}

static void passes(void)
{
    static struct gb_pass others[PASSES];
    begin(BUCKETS, MOST_INODES);
    long long before = bytes(), started = now();
    for (int i = 0; i < PASSES; i++)
        must(gb_pass_split(&pass, &others[i]) == 0, "gb_pass_split");
    long long taken = bytes() - before;
    for (int i = 0; i < PASSES; i++)
        must(gb_close(&others[i]) == 0, "gb_close");
    printf("%lld %lld\n", taken / PASSES, (now() - started) / PASSES);
}

/* A name in the root of a length, which begins with a number. */
static const char *name_of(long number, int length)
{
    static char path[LONGEST + 2];
    memset(path, 'x', sizeof path);
    path[0] = '/';
    int digits = snprintf(path + 1, sizeof path - 1, "%07ld", number);
    path[1 + digits] = 'x';
    path[1 + length] = 0;
    return path;
}

static void make_files(int length, long count)
{
    for (long i = 0; i < count; i++) {
        const char *path = name_of(i, length);
        must(gb_create(&gate, &pass, GB_ROOT, path, strlen(path), &found) == 0, "gb_create");
    }
}

static void files(int length, long count)
{
    begin(BUCKETS, MOST_INODES);
    long long before = bytes(), started = now();
    make_files(length, count);
    printf("%lld %lld\n", (bytes() - before) / count, (now() - started) / count);
}

static void names(int length, long count)
{
    begin(BUCKETS, 2ull * MOST_INODES);
    char file[16];
    for (int i = 0; i < FILES; i++) {
        size_t length = (size_t)snprintf(file, sizeof file, "/f%d", i);
        must(gb_create(&gate, &pass, GB_ROOT, file, length, &found) == 0, "gb_create");
    }
    long long before = bytes(), started = now();
    for (long i = 0; i < count; i++) {
        size_t old = (size_t)snprintf(file, sizeof file, "/f%ld", i % FILES);
        const char *path = name_of(i, length);
        must(gb_link(&gate, &pass, GB_ROOT, file, old, path, strlen(path), &found) == 0, "gb_link");
    }
    printf("%lld %lld\n", (bytes() - before) / count, (now() - started) / count);
}

static void fill(long count)
{
    for (long i = 0; i < count; i++) {
        const char *path = name_of(i, 8);
        must(gb_look(&gate, &pass, GB_ROOT, path, strlen(path), GB_FOLLOW, &found) == ENOENT, "gb_look");
    }
}

static void rows(long count)
{
    begin(MOST_INODES / 2, MOST_INODES);
    long long before = bytes(), started = now();
    fill(count);
    printf("%lld %lld\n", (bytes() - before) / count, (now() - started) / count);
}

/* The directories are /a, and /d with one in another below it, the last of which has e. */
static void deep(long count)
{
    uint64_t base = GB_ROOT;
    struct gb_gone gone;
    begin(BUCKETS, MOST_INODES);
    must(gb_mkdir(&gate, &pass, base, "a", 1, &found) == 0, "gb_mkdir");
    for (long i = 0; i < count; i++) {
        must(gb_mkdir(&gate, &pass, base, "d", 1, &found) == 0, "gb_mkdir");
        base = found.number;
    }
    must(gb_mkdir(&gate, &pass, base, "e", 1, &found) == 0, "gb_mkdir");
    long long started = now();
    must(gb_rename(&gate, &pass, base, "/d", 2, "e/d", 3, 0, &found, &gone) == EINVAL, "a rename beneath itself");
    long long refused = now() - started;
    started = now();
    must(gb_rename(&gate, &pass, base, "/a", 2, "e/a", 3, 0, &found, &gone) == 0, "gb_rename");
    printf("%lld %lld\n", now() - started, refused);
}

static void shrink(long count)
{
    uint64_t emptied;
    begin(MOST_INODES / 2, MOST_INODES);
    fill(count);
    long long started = now();
    must(gb_try_shrink(&pass, (uint64_t)count, &emptied) == 0, "gb_try_shrink");
    printf("%llu %lld\n", (unsigned long long)emptied, now() - started);
}

static int is_longer(const void *one, const void *other)
{
    long long a = *(const long long *)one, b = *(const long long *)other;
    return (a > b) - (a < b);
}

/* The pages begin behind names all over the directory, none near its end. */
static void pages(long count)
{
    static struct gb_entry page[PAGE];
    static long long took[PAGES];
    begin(BUCKETS, MOST_INODES);
    make_files(16, count);
    for (long i = 0; i < PAGES; i++) {
        const char *after = name_of(i * 7919 % (count - PAGE), 16) + 1;
        long long started = now();
        must(gb_try_entries(&pass, GB_ROOT, "/", 1, after, 16, page, PAGE, &found) == 0, "gb_try_entries");
        took[i] = now() - started;
        must(found.count == PAGE, "a page");
    }
    qsort(took, PAGES, sizeof *took, is_longer);
    printf("%lld %lld\n", took[PAGES / 2], took[PAGES * 99 / 100]);
}

int main(int count, char **words)
{
    const char *what = count > 1 ? words[1] : "";
    long first = count > 2 ? atol(words[2]) : 0, second = count > 3 ? atol(words[3]) : 0;
    gate = gb_gate_new();
    if (!strcmp(what, "table"))
        table((unsigned long long)first);
    else if (!strcmp(what, "pass"))
        passes();
    else if (!strcmp(what, "files") && first >= 8 && first <= LONGEST)
        files((int)first, second);
    else if (!strcmp(what, "names") && first >= 8 && first <= LONGEST)
        names((int)first, second);
    else if (!strcmp(what, "rows"))
        rows(first);
    else if (!strcmp(what, "deep"))
        deep(first);
    else if (!strcmp(what, "shrink"))
        shrink(first);
    else if (!strcmp(what, "page") && first > PAGE)
        pages(first);
    else
        must(0, "its usage");
    return 0;
}

/* What one caller can cost the others of a cache, or the machine, by calls that are all allowed.
 *
 * usage: costs deep LEVELS | shrink ROWS | names INODES | unlimited INODES | passes
 *
 * deep: milliseconds of a rename of a directory into one below this many others, of one that is refused as beneath
 * itself, and of as many look-ups under the lock as there are directories, each of one name in one of them. shrink:
 * milliseconds of gb_try_look filling this many rows, of a gb_try_shrink of them, and of the longest hold of a gb_shrink.
 * names: how many names a cache of this many inodes takes, from gb_cache_new and if gb_cache_with_names is given SOME.
 * unlimited: how many it takes without a limit, and what one weighs. passes: what a pass weighs, and how long a split
 * takes, and a malloc of as many bytes that are then written. All times are the processor's. It is linked with
 * --wrap=gb_try_shrink, and examples/callers bounds what it prints.
 */
#define _GNU_SOURCE
#include <gigbewu.h>
#include <malloc.h>
#include <stdio.h>
#include <stdlib.h>
#include <string.h>
#include <time.h>

enum { BUCKETS = 262144, MOST_INODES = 1048576, MOST_LINKS = 65000, LENGTHS = 3, PASSES = 1000, LOOKS = 10000, SOME = 100 };

int __real_gb_try_shrink(struct gb_pass *pass, uint64_t most, uint64_t *emptied);
int __wrap_gb_try_shrink(struct gb_pass *pass, uint64_t most, uint64_t *emptied);

static const size_t LENGTH[LENGTHS] = {16, 32, 255};
static struct gb_pass pass;
static struct gb_found found;
static struct gb_gone gone;
static struct gb_gate gate;
static double longest_hold;

static double now(void)
{
    struct timespec time;
    clock_gettime(CLOCK_THREAD_CPUTIME_ID, &time);
    return (double)time.tv_sec * 1e3 + (double)time.tv_nsec / 1e6;
}

static void must(int right, const char *what)
{
    if (!right) {
        fprintf(stderr, "costs: %s fails\n", what);
        exit(1);
    }
}

static size_t memory(void)
{
    struct mallinfo2 told = mallinfo2();
    return told.uordblks + told.hblkhd;
}

int __wrap_gb_try_shrink(struct gb_pass *with, uint64_t most, uint64_t *emptied)
{
    double begin = now();
    int answer = __real_gb_try_shrink(with, most, emptied);
    double took = now() - begin;
    longest_hold = took > longest_hold ? took : longest_hold;
    return answer;
}

/* A directory of that name in another one. */
static uint64_t make(uint64_t dir, const char *name)
{
    must(gb_try_mkdir(&pass, dir, name, strlen(name), &found) == 0, "gb_try_mkdir");
    return found.number;
}

static double renamed(uint64_t base, const char *old, const char *new, int due)
{
    double begin = now();
    int answer = gb_try_rename(&pass, base, old, strlen(old), new, strlen(new), 0, &found, &gone);
    double took = now() - begin;
    must(answer == due, "gb_try_rename");
    return took;
}

/* How long a look-up of the only name of a directory takes under the lock, on the average over directories that lie far
 * from each other. Their numbers follow each other. */
static double looked(uint64_t first, uint64_t levels)
{
    double begin = now();
    for (uint64_t at = 0; at < LOOKS; at++) {
        uint64_t dir = first + at * 7919 % (levels - 1);
        must(gb_try_look(&pass, dir, "d", 1, GB_FOLLOW, &found) == 0, "gb_try_look");
    }
    return (now() - begin) / LOOKS;
}

static void deep(uint64_t levels)
{
    must(levels > 1 && gb_cache_new(1024, MOST_INODES, &pass) == 0, "gb_cache_new");
    make(GB_ROOT, "moved");
    uint64_t first = make(GB_ROOT, "d"), deepest = first;
    for (uint64_t at = 1; at < levels; at++)
        deepest = make(deepest, "d");
    must(deepest - first == levels - 1, "the numbers of a chain");
    double moved = renamed(deepest, "/moved", "moved", 0), refused = renamed(deepest, "/d", "d", 22);
    printf("a rename of a directory below %llu others: %.1f ms\n", (unsigned long long)levels, moved);
    printf("one that is refused as beneath itself: %.1f ms\n", refused);
    printf("as many look-ups under the lock: %.1f ms\n", looked(first, levels) * (double)levels);
}

/* Answers how long it took. */
static double fill(uint64_t rows)
{
    char name[32];
    double begin = now();
    for (uint64_t at = 0; at < rows; at++) {
        size_t len = (size_t)snprintf(name, sizeof name, "/%llu", (unsigned long long)at);
        must(gb_try_look(&pass, GB_ROOT, name, len, GB_FOLLOW, &found) == 2, "gb_try_look");
    }
    return now() - begin;
}

static void shrink(uint64_t rows)
{
    /* Some few names find their bucket full. */
    uint64_t emptied, least = rows - rows / 100;
    gate = gb_gate_new();
    must(gb_cache_new(BUCKETS, 1, &pass) == 0, "gb_cache_new");
    double filled = fill(rows), begin = now();
    must(gb_try_shrink(&pass, rows, &emptied) == 0 && emptied >= least, "gb_try_shrink");
    printf("look-ups that fill %llu rows: %.1f ms\n", (unsigned long long)rows, filled);
    printf("gb_try_shrink of %llu rows: %.1f ms\n", (unsigned long long)emptied, now() - begin);
    fill(rows);
    longest_hold = 0;
    must(gb_shrink(&gate, &pass, UINT64_MAX, &emptied) == 0 && emptied >= least, "gb_shrink");
    printf("the longest hold of a gb_shrink of %llu rows: %.2f ms\n", (unsigned long long)emptied, longest_hold);
}

/* Gives files as many names of that length as they get, at most 65,000 each, and answers how many there were. */
static uint64_t name_all(uint64_t files, size_t length, double *longest)
{
    char first[256], name[256];
    uint64_t names = 0;
    memset(name, 'x', sizeof name);
    for (uint64_t file = 0; file < files; file++) {
        for (int at = 0; at < MOST_LINKS; at++) {
            int front = snprintf(name, sizeof name, "%llu.%d", (unsigned long long)file, at);
            name[front] = 'x';
            double begin = now();
            int answer = at == 0 ? gb_try_create(&pass, GB_ROOT, name, length, &found)
                                 : gb_try_link(&pass, GB_ROOT, first, length, name, length, &found);
            *longest = now() - begin > *longest ? now() - begin : *longest;
            if (answer == GB_NO_MEMORY)
                return names;
            must(answer == 0, "a name");
            if (at == 0)
                memcpy(first, name, sizeof first);
            names++;
        }
    }
    return names;
}

static void names(uint64_t inodes)
{
    double longest = 0;
    for (int is_given = 0; is_given < 2; is_given++) {
        int answer = is_given ? gb_cache_with_names(1, inodes, SOME, &pass) : gb_cache_new(1, inodes, &pass);
        must(answer == 0, "a cache");
        printf("names of a cache for %llu inodes%s: %llu\n", (unsigned long long)inodes, is_given ? ", if given a limit" : "",
               (unsigned long long)name_all(inodes - 1, LENGTH[0], &longest));
        must(gb_close(&pass) == 0, "gb_close");
    }
}

static void unlimited(uint64_t inodes)
{
    for (int at = 0; at < LENGTHS; at++) {
        double longest = 0;
        must(gb_cache_with_names(1, inodes, UINT64_MAX, &pass) == 0, "gb_cache_with_names");
        size_t before = memory();
        uint64_t made = name_all(inodes - 1, LENGTH[at], &longest);
        printf("without a limit: %llu names of %zu bytes, %.0f bytes each, the longest make %.1f ms\n",
               (unsigned long long)made, LENGTH[at], (double)(memory() - before) / (double)made, longest);
        must(gb_close(&pass) == 0, "gb_close");
    }
}

static void passes(void)
{
    static struct gb_pass more[PASSES];
    static void *volatile blocks[PASSES];
    must(gb_cache_new(1, 1, &pass) == 0, "gb_cache_new");
    size_t before = memory();
    double begin = now();
    for (int at = 0; at < PASSES; at++)
        must(gb_pass_split(&pass, &more[at]) == 0, "gb_pass_split");
    double split = now() - begin;
    size_t weight = (memory() - before) / PASSES;
    begin = now();
    for (int at = 0; at < PASSES; at++) {
        void *block = malloc(weight);
        must(block != NULL, "malloc");
        memset(block, 1, weight);
        blocks[at] = block;
    }
    printf("a pass: %.1f KB\na split: %.1f us\n", (double)weight / 1000, split / PASSES * 1e3);
    printf("a malloc of as many bytes that are then written: %.1f us\n", (now() - begin) / PASSES * 1e3);
    for (int at = 0; at < PASSES; at++)
        free(blocks[at]);
}

int main(int count, char **words)
{
    uint64_t number = count == 3 ? strtoull(words[2], NULL, 10) : 0;
    if (count == 3 && strcmp(words[1], "deep") == 0)
        deep(number);
    else if (count == 3 && strcmp(words[1], "shrink") == 0)
        shrink(number);
    else if (count == 3 && strcmp(words[1], "names") == 0)
        names(number);
    else if (count == 3 && strcmp(words[1], "unlimited") == 0)
        unlimited(number);
    else if (count == 2 && strcmp(words[1], "passes") == 0)
        passes();
    else
        must(0, "its usage");
    return 0;
}

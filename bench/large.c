/* What a cache of many files takes of memory and time, and the longest of its calls, by the functions of gigbewu.h.
 *
 * usage: large FILES DIRECTORIES BUCKETS SOME
 *
 * It makes FILES files in DIRECTORIES directories, one after the other in each in turn, with names of 16 bytes in no
 * order. Then it looks up SOME of them, which fills their rows, and the same by the rows alone; gives SOME files one
 * name more; lists a directory whole; looks up half of the files, which fills most rows and evicts others; and takes
 * SOME names away. It prints a line for each part: its name, how many calls, the bytes from malloc that the part took,
 * the median of 10,000 calls in nanoseconds, the processor's time of the longest call in microseconds, that of all
 * calls in milliseconds, and the bytes of the largest block that malloc was asked for and of the largest that realloc
 * was. A map that grows moves all that it has into a larger block. It is linked with --wrap=malloc and --wrap=realloc.
 * Two more lines have how many look-ups by the rows found none, and how many rows another name had got by then.
 */
#include <gigbewu.h>
#include <malloc.h>
#include <stdio.h>
#include <stdlib.h>
#include <string.h>
#include <time.h>

enum { NAME = 16, SAMPLES = 10000 };

/* A part's calls so far: their times, of some the nanoseconds, and what the program had of malloc before. */
struct part {
    const char *name;
    uint64_t calls, all, longest, samples[SAMPLES];
    size_t sampled, block, moved;
    long long bytes;
};

static struct gb_pass pass;
static struct gb_found found;
static uint64_t files, directories, *dirs, missed;
/* The largest block that malloc was asked for, and the largest that realloc was, since the part began. */
static size_t block, moved;

void *__real_malloc(size_t size);
void *__real_realloc(void *at, size_t size);

void *__wrap_malloc(size_t size)
{
    block = size > block ? size : block;
    return __real_malloc(size);
}

void *__wrap_realloc(void *at, size_t size)
{
    moved = size > moved ? size : moved;
    return __real_realloc(at, size);
}

static void must(int right, const char *what)
{
    if (!right) {
        fprintf(stderr, "large: %s fails\n", what);
        exit(1);
    }
}

static uint64_t now(clockid_t clock)
{
    struct timespec time;
    clock_gettime(clock, &time);
    return (uint64_t)time.tv_sec * 1000000000u + (uint64_t)time.tv_nsec;
}

/* The bytes that the program has from malloc. */
static long long bytes(void)
{
    struct mallinfo2 info = mallinfo2();
    return (long long)(info.uordblks + info.hblkhd);
}

/* The name of a number: no two have the same, and their order is another than that of the numbers. */
static const char *name_of(uint64_t number)
{
    static char name[NAME + 1];
    uint64_t mixed = (number + 1) * 0x9e3779b97f4a7c15u;
    mixed = (mixed ^ mixed >> 32) * 0xd6e8feb86659fd93u;
    mixed ^= mixed >> 32;
    for (int at = 0; at < NAME; at++)
        name[at] = "0123456789abcdef"[mixed >> 4 * at & 15];
    return name;
}

static uint64_t directory_of(uint64_t number)
{
    return dirs[number % directories];
}

/* The calls of a part, each of which answers 0. */

static int make(uint64_t number)
{
    return gb_try_create(&pass, directory_of(number), name_of(number), NAME, &found);
}

static int look(uint64_t number)
{
    return gb_try_look(&pass, directory_of(number), name_of(number), NAME, GB_NO_FOLLOW, &found);
}

static int look_fast(uint64_t number)
{
    int answer = gb_look_fast(&pass, directory_of(number), name_of(number), NAME, GB_NO_FOLLOW, &found);
    missed += answer == GB_AGAIN;
    return answer == GB_AGAIN ? 0 : answer;
}

/* The new name is that of a number behind the files, in the same directory. */
static int link_one(uint64_t number)
{
    char old[NAME];
    memcpy(old, name_of(number), NAME);
    uint64_t further = number + (files + directories - 1) / directories * directories;
    return gb_try_link(&pass, directory_of(number), old, NAME, name_of(further), NAME, &found);
}

static int take(uint64_t number)
{
    struct gb_gone gone;
    return gb_try_unlink(&pass, directory_of(number), name_of(number), NAME, &found, &gone);
}

static int list(uint64_t number)
{
    size_t room = (files / directories + 1) * (NAME + 1) * 2;
    char *names = malloc(room);
    must(names != NULL, "malloc");
    int answer = gb_try_list(&pass, directory_of(number), ".", 1, names, room, &found);
    must(found.count > 0 && found.count <= room, "a list");
    free(names);
    return answer;
}

static int later(const void *one, const void *other)
{
    uint64_t first = *(const uint64_t *)one, second = *(const uint64_t *)other;
    return (first > second) - (first < second);
}

static void tell(struct part *part)
{
    part->block = block;
    part->moved = moved;
    qsort(part->samples, part->sampled, sizeof *part->samples, later);
    printf("%s %llu %lld %llu %llu %llu %zu %zu\n", part->name, (unsigned long long)part->calls, bytes() - part->bytes,
           (unsigned long long)part->samples[part->sampled / 2], (unsigned long long)part->longest / 1000,
           (unsigned long long)part->all / 1000000, part->block, part->moved);
    fflush(stdout);
}

static void run(const char *name, int (*call)(uint64_t), uint64_t calls)
{
    static struct part part;
    part = (struct part){.name = name, .calls = calls, .bytes = bytes()};
    block = moved = 0;
    uint64_t started = now(CLOCK_THREAD_CPUTIME_ID), before = started, step = calls / SAMPLES + 1;
    for (uint64_t number = 0; number < calls; number++) {
        uint64_t begin = now(CLOCK_MONOTONIC);
        must(call(number) == 0, name);
        if (number % step == 0)
            part.samples[part.sampled++] = now(CLOCK_MONOTONIC) - begin;
        uint64_t after = now(CLOCK_THREAD_CPUTIME_ID);
        part.longest = after - before > part.longest ? after - before : part.longest;
        before = after;
    }
    part.all = before - started;
    tell(&part);
}

/* The making of the cache, or its end, as one call. */
static void once(const char *name, int (*call)(uint64_t), uint64_t number)
{
    struct part part = {.name = name, .calls = 1, .bytes = bytes(), .sampled = 1};
    block = moved = 0;
    uint64_t begin = now(CLOCK_THREAD_CPUTIME_ID);
    must(call(number) == 0, name);
    part.all = part.longest = part.samples[0] = now(CLOCK_THREAD_CPUTIME_ID) - begin;
    tell(&part);
}

static int begin(uint64_t buckets)
{
    return gb_cache_new(buckets, files + directories + 1, &pass);
}

static int end(uint64_t number)
{
    (void)number;
    return gb_close(&pass);
}

int main(int count, char **words)
{
    must(count == 5, "its usage");
    files = strtoull(words[1], NULL, 10);
    directories = strtoull(words[2], NULL, 10);
    uint64_t some = strtoull(words[4], NULL, 10), evictions;
    must(directories > 0 && some > 0 && some <= files, "its usage");
    must((dirs = malloc(directories * sizeof *dirs)) != NULL, "malloc");
    once("table", begin, strtoull(words[3], NULL, 10));
    for (uint64_t at = 0; at < directories; at++) {
        char name[24];
        int length = snprintf(name, sizeof name, "%llu", (unsigned long long)at);
        must(gb_try_mkdir(&pass, GB_ROOT, name, (size_t)length, &found) == 0, "gb_try_mkdir");
        dirs[at] = found.number;
    }
    run("makes", make, files);
    run("fills", look, some);
    run("rows", look_fast, some);
    printf("missed %llu\n", (unsigned long long)missed);
    run("links", link_one, some);
    run("lists", list, 1);
    run("half", look, (files + 1) / 2);
    must(gb_counts(&pass, &evictions) == 0, "gb_counts");
    printf("evicted %llu\n", (unsigned long long)evictions);
    run("removals", take, some);
    once("end", end, 0);
    return 0;
}

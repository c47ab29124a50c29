/* What its trail costs a look-up that the rows answer.
 *
 * usage: along [ROUNDS]
 *
 * One thread looks a file up by gb_look_fast and gb_look_fast_along in turns, 20,000 times each, by paths of one, four
 * and eight names, in ROUNDS rounds, 101 unless given. Prints a table of the median nanoseconds of both in the thread's
 * own time, and of the median of the ratios of the turns with their quartiles in brackets.
 */
#include <gigbewu.h>
#include <stdio.h>
#include <stdlib.h>
#include <string.h>
#include <time.h>

enum { CALLS = 20000, ROUNDS = 101, MOST_ROUNDS = 9999, PLACES = 16, BUCKETS = 1024, INODES = 64 };

static const int DEPTHS[] = {1, 4, 8};

static void must(int right, const char *what)
{
    if (!right) {
        printf("along: %s fails\n", what);
        exit(1);
    }
}

static double now(void)
{
    struct timespec time;
    clock_gettime(CLOCK_THREAD_CPUTIME_ID, &time);
    return (double)time.tv_sec * 1e9 + (double)time.tv_nsec;
}

static int compare(const void *one, const void *other)
{
    double a = *(const double *)one, b = *(const double *)other;
    return (a > b) - (a < b);
}

/* The numbers are sorted by it. */
static double at_quarter(double *numbers, int many, int quarter)
{
    qsort(numbers, (size_t)many, sizeof *numbers, compare);
    return numbers[(many - 1) * quarter / 4];
}

/* The nanoseconds of a look-up by the rows, with its trail or without. */
static double look(struct gb_pass *pass, const char *path, int is_along)
{
    uint64_t trail[PLACES];
    struct gb_found found;
    size_t len = strlen(path);
    double begun = now();
    for (int call = 0; call < CALLS; call++) {
        int answer = is_along ? gb_look_fast_along(pass, GB_ROOT, path, len, GB_FOLLOW, trail, PLACES, &found)
                              : gb_look_fast(pass, GB_ROOT, path, len, GB_FOLLOW, &found);
        must(answer == 0, "a look-up");
    }
    return (now() - begun) / CALLS;
}

static void measure(struct gb_pass *pass, const char *path, int names, int rounds)
{
    static double plain[MOST_ROUNDS], along[MOST_ROUNDS], ratios[MOST_ROUNDS];
    for (int round = 0; round < rounds; round++) {
        // They take turns in going first.
        if (round % 2)
            along[round] = look(pass, path, 1);
        plain[round] = look(pass, path, 0);
        if (round % 2 == 0)
            along[round] = look(pass, path, 1);
        ratios[round] = along[round] / plain[round];
    }
    double median = at_quarter(ratios, rounds, 2);
    printf("%d %-7s  %7.1f  %14.1f  %.2f (%.2f-%.2f)\n", names, names > 1 ? "names" : "name", at_quarter(plain, rounds, 2),
           at_quarter(along, rounds, 2), median, at_quarter(ratios, rounds, 1), at_quarter(ratios, rounds, 3));
}

int main(int words, char **word)
{
    int rounds = words > 1 ? atoi(word[1]) : ROUNDS;
    must(rounds > 0 && rounds <= MOST_ROUNDS, "the number of rounds");
    struct gb_gate gate = gb_gate_new();
    struct gb_pass pass = {0};
    struct gb_found found;
    must(gb_cache_new(BUCKETS, INODES, &pass) == 0, "gb_cache_new");
    printf("%-9s  %7s  %14s  %s\n", "trails", "without", "with its trail", "times as long");
    for (size_t at = 0; at < sizeof DEPTHS / sizeof *DEPTHS; at++) {
        char path[64] = "";
        for (int name = 1; name < DEPTHS[at]; name++) {
            snprintf(path + strlen(path), sizeof path - strlen(path), "/dir%d%d", DEPTHS[at], name);
            must(gb_mkdir(&gate, &pass, GB_ROOT, path, strlen(path), &found) == 0, "gb_mkdir");
        }
        snprintf(path + strlen(path), sizeof path - strlen(path), "/file%d", DEPTHS[at]);
        must(gb_create(&gate, &pass, GB_ROOT, path, strlen(path), &found) == 0, "gb_create");
        must(gb_look(&gate, &pass, GB_ROOT, path, strlen(path), GB_FOLLOW, &found) == 0, "gb_look");
        measure(&pass, path, DEPTHS[at], rounds);
    }
    must(gb_close(&pass) == 0, "gb_close");
    return 0;
}

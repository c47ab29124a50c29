/* Times one kind of call of the library for C, on one thread, in the thread's own time of the processor, and prints the
 * median over turns of 512 calls, in nanoseconds, and how many calls there were.
 *
 * usage: turns look|miss|once|rename|churn|hold DEPTH MILLISECONDS
 *
 * Paths have DEPTH names. `look` looks 1,000 files up in a random order by gb_look_fast. `miss` looks up names that are
 * nowhere and that no row tells of, by gb_look_fast and then gb_try_look, `once` such names by gb_try_resolve, or as `miss`
 * if the library is so old that it lacks that. `rename` renames a file to and fro, with rows for both of its names.
 * `churn` makes, renames and unlinks files, with a look-up of a file after each. `hold` gets the lock and gives it back, by
 * a gb_try_shrink of no row.
 */
#include <gigbewu.h>
#include <stdio.h>
#include <stdlib.h>
#include <string.h>
#include <time.h>

enum { CALLS = 512, FILES = 1000, PAIRS = 32, MOST_TURNS = 1 << 16, ROOM = 128 };
enum { ROOT = 1, BUCKETS = 1024, INODES = 1 << 20 };

struct text {
    char bytes[ROOM];
    size_t len;
};

int gb_try_resolve(struct gb_pass *pass, uint64_t base, const char *path, size_t len, uint32_t follow,
                   struct gb_found *found) __attribute__((weak));

static struct gb_pass pass;
static struct gb_found found;
static struct gb_gone gone;
static struct text files[FILES], pairs[PAIRS][2];
static uint64_t seed = 88172645463325252u, counter;

static void must(int right, const char *what)
{
    if (!right) {
        fprintf(stderr, "turns: %s fails\n", what);
        exit(1);
    }
}

static uint64_t draw(void)
{
    seed ^= seed << 13;
    seed ^= seed >> 7;
    return seed ^= seed << 17;
}

static uint64_t now(void)
{
    struct timespec time;
    clock_gettime(CLOCK_THREAD_CPUTIME_ID, &time);
    return (uint64_t)time.tv_sec * 1000000000u + (uint64_t)time.tv_nsec;
}

static struct text named(const char *folder, const char *letter, uint64_t number)
{
    struct text text;
    text.len = (size_t)snprintf(text.bytes, ROOM, "%s/%s%llx", folder, letter, (unsigned long long)number);
    return text;
}

static void look(const struct text *text)
{
    must(gb_look_fast(&pass, ROOT, text->bytes, text->len, GB_FOLLOW, &found) == 0, "gb_look_fast");
}

static void create(const struct text *text)
{
    must(gb_try_create(&pass, ROOT, text->bytes, text->len, &found) == 0, "gb_try_create");
}

static void move(const struct text *from, const struct text *to)
{
    int answer = gb_try_rename(&pass, ROOT, from->bytes, from->len, to->bytes, to->len, 0, &found, &gone);
    must(answer == 0, "gb_try_rename");
}

static void miss(const char *folder, int once)
{
    struct text text = named(folder, "no", counter++);
    if (once && gb_try_resolve) {
        must(gb_try_resolve(&pass, ROOT, text.bytes, text.len, GB_FOLLOW, &found) > 0, "gb_try_resolve");
        return;
    }
    must(gb_look_fast(&pass, ROOT, text.bytes, text.len, GB_FOLLOW, &found) == GB_AGAIN, "a miss");
    must(gb_try_look(&pass, ROOT, text.bytes, text.len, GB_FOLLOW, &found) > 0, "gb_try_look");
}

/* One change of the pair whose turn it is, and a look-up. */
static void churn(void)
{
    const struct text *pair = pairs[counter / 3 % PAIRS];
    if (counter % 3 == 0)
        create(&pair[0]);
    else if (counter % 3 == 1)
        move(&pair[0], &pair[1]);
    else
        must(gb_try_unlink(&pass, ROOT, pair[1].bytes, pair[1].len, &found, &gone) == 0, "gb_try_unlink");
    counter++;
    look(&files[draw() % FILES]);
}

static void hold(void)
{
    uint64_t emptied;
    must(gb_try_shrink(&pass, 0, &emptied) == 0 && emptied == 0, "gb_try_shrink");
}

static void call(const char *work, const char *folder)
{
    if (work[0] == 'h')
        hold();
    else if (work[0] == 'l')
        look(&files[draw() % FILES]);
    else if (work[0] == 'm' || work[0] == 'o')
        miss(folder, work[0] == 'o');
    else if (work[0] == 'r')
        move(&pairs[0][counter & 1], &pairs[0][~counter & 1]), counter++;
    else
        churn();
}

static int by_size(const void *a, const void *b)
{
    double x = *(const double *)a, y = *(const double *)b;
    return (x > y) - (x < y);
}

int main(int count, char **words)
{
    must(count == 4 && strchr("lmorch", words[1][0]), "its usage");
    char folder[ROOM] = "";
    must(gb_cache_new(BUCKETS, INODES, &pass) == 0, "gb_cache_new");
    for (int names = atoi(words[2]); names > 1; names--) {
        strcat(folder, "/dir");
        must(gb_try_mkdir(&pass, ROOT, folder, strlen(folder), &found) == 0, "gb_try_mkdir");
    }
    for (int i = 0; i < FILES; i++) {
        files[i] = named(folder, "f", (uint64_t)i);
        create(&files[i]);
        must(gb_try_look(&pass, ROOT, files[i].bytes, files[i].len, GB_FOLLOW, &found) == 0, "gb_try_look");
    }
    for (int i = 0; i < PAIRS; i++)
        for (int name = 0; name < 2; name++) {
            pairs[i][name] = named(folder, name ? "to" : "from", (uint64_t)i);
            gb_try_look(&pass, ROOT, pairs[i][name].bytes, pairs[i][name].len, GB_FOLLOW, &found);
        }
    if (words[1][0] == 'r')
        create(&pairs[0][0]);
    static double turns[MOST_TURNS];
    uint64_t limit = now() + strtoull(words[3], NULL, 10) * 1000000u;
    int done = 0;
    while (done < MOST_TURNS && (done < 3 || now() < limit)) {
        uint64_t begin = now();
        for (int i = 0; i < CALLS; i++)
            call(words[1], folder);
        turns[done++] = (double)(now() - begin) / CALLS;
    }
    qsort(turns, (size_t)done, sizeof *turns, by_size);
    printf("%.1f %d\n", turns[done / 2], done * CALLS);
    return 0;
}

/* gb_shrink empties many rows in portions, so that nobody waits for all of them. Linked with --wrap=gb_try_shrink. Prints
 * the same whatever rows the names fall into.
 */
#include <errno.h>
#include <gigbewu.h>
#include <stdio.h>
#include <stdlib.h>

enum { BUCKETS = 4096, NAMES = 4000, SOME = 1500 };

int __real_gb_try_shrink(struct gb_pass *pass, uint64_t most, uint64_t *emptied);
int __wrap_gb_try_shrink(struct gb_pass *pass, uint64_t most, uint64_t *emptied);

static struct gb_gate gate;
static struct gb_pass pass;
static uint64_t asked, largest, sum;

int __wrap_gb_try_shrink(struct gb_pass *with, uint64_t most, uint64_t *emptied)
{
    int answer = __real_gb_try_shrink(with, most, emptied);
    asked++;
    largest = most > largest ? most : largest;
    sum += answer == 0 ? *emptied : 0;
    return answer;
}

static void must(int right, const char *what)
{
    if (!right) {
        printf("%s: not as it should be\n", what);
        exit(1);
    }
}

static uint64_t shrink(uint64_t most)
{
    uint64_t emptied = 0;
    asked = largest = sum = 0;
    must(gb_shrink(&gate, &pass, most, &emptied) == 0, "shrink");
    must(emptied == sum && emptied <= most && largest <= GB_PORTION && largest <= most, "a sum of portions");
    return emptied;
}

/* A row for each name, but for those whose buckets are full. */
static void fill(void)
{
    struct gb_found found;
    char path[32];
    for (int i = 0; i < NAMES; i++) {
        size_t len = (size_t)snprintf(path, sizeof path, "/%d", i);
        must(gb_look(&gate, &pass, GB_ROOT, path, len, GB_FOLLOW, &found) == ENOENT, "a look-up");
    }
}

int main(void)
{
    uint64_t left;
    gate = gb_gate_new();
    must(gb_cache_new(BUCKETS, 1, &pass) == 0, "a cache");
    must(shrink(UINT64_MAX) == 0 && asked == 1, "no row");
    fill();
    must(shrink(0) == 0, "no row of many");
    must(shrink(1) == 1 && asked == 1, "one row");
    must(shrink(SOME) == SOME && asked == 2, "two portions");
    left = shrink(UINT64_MAX);
    must(left > NAMES / 2 - 1 && left < NAMES - SOME && asked == left / GB_PORTION + 1, "all rows");
    must(shrink(UINT64_MAX) == 0, "no row again");
    must(gb_close(&pass) == 0, "close");
    printf("rows emptied in portions\n");
    return 0;
}

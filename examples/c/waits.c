/* How long callers wait beside threads that hold the lock for long.
 *
 * usage: waits [NAMES [SECONDS [tickets]]]
 *
 * One, two and three threads list a directory of NAMES names (20,000 unless given) in a loop, which holds the lock for
 * some milliseconds a time. Beside them one thread makes changes, and another looks up names that no row has. Prints the
 * median and the longest wait of both, each for SECONDS (5 unless given), and how many lists ended within one wait at
 * most: as the header hands the lock to a thread that was passed over, and unless the third word is `tickets` as it
 * would be without that. It ends with 1 if with tickets more than MOST_LISTS ended within one wait, and also more than one
 * in FEWER of as many as do without them: on a busy machine a thread that has the ticket may itself be kept off the
 * processor, which no lock can help. Built with -DUNFAIR no ticket is ever taken, so that it fails.
 */
#define _GNU_SOURCE
#include <gigbewu.h>
#include <pthread.h>
#include <stdatomic.h>
#include <stdio.h>
#include <stdlib.h>
#include <string.h>
#include <time.h>
#include <unistd.h>

enum { HOGS = 3, BUCKETS = 256, INODES = 1048576, NAMES = 20000, SECONDS = 5, MOST = 1000000, REST = 200, MOST_LISTS = 12,
       FEWER = 10 };

#ifdef UNFAIR
#define CLOCK NULL
#else
#define CLOCK gb_milliseconds
#endif

struct caller {
    pthread_t thread;
    struct gb_pass pass;
    double *waited; /* in milliseconds */
    long calls;
    long passed; /* the most lists that ended within one wait */
};

static struct gb_gate gate;
static struct gb_pass pass;
static atomic_int ended;
static atomic_long lists;

static double now(void)
{
    struct timespec time;
    clock_gettime(CLOCK_MONOTONIC, &time);
    return (double)time.tv_sec * 1e3 + (double)time.tv_nsec / 1e6;
}

static void must(int right, const char *what)
{
    if (!right) {
        printf("%s: not as it should be\n", what);
        exit(1);
    }
}

static void *list(void *given)
{
    struct caller *caller = given;
    struct gb_found found;
    char none[1];
    while (!atomic_load(&ended)) {
        must(gb_list(&gate, &caller->pass, GB_ROOT, "/long", 5, none, 0, &found) == 0, "list");
        caller->calls++;
        atomic_fetch_add(&lists, 1);
    }
    return NULL;
}

static long most(long one, long other)
{
    return one > other ? one : other;
}

struct wait {
    double began;
    long lists;
};

static struct wait begin_wait(void)
{
    struct wait wait = {now(), atomic_load(&lists)};
    return wait;
}

static void end_wait(struct caller *caller, struct wait wait)
{
    long passed = atomic_load(&lists) - wait.lists;
    caller->passed = most(caller->passed, passed);
    if (caller->calls < MOST)
        caller->waited[caller->calls++] = now() - wait.began;
    usleep(REST);
}

static void *change(void *given)
{
    struct caller *caller = given;
    struct gb_found found;
    struct gb_gone gone;
    while (!atomic_load(&ended)) {
        struct wait wait = begin_wait();
        must(gb_create(&gate, &caller->pass, GB_ROOT, "/made", 5, &found) == 0, "create");
        end_wait(caller, wait);
        wait = begin_wait();
        must(gb_unlink(&gate, &caller->pass, GB_ROOT, "/made", 5, &found, &gone) == 0, "unlink");
        end_wait(caller, wait);
    }
    return NULL;
}

static void *miss(void *given)
{
    struct caller *caller = given;
    struct gb_found found;
    char path[32];
    for (long i = 0; !atomic_load(&ended); i++) {
        int len = snprintf(path, sizeof path, "/never%ld", i);
        struct wait wait = begin_wait();
        gb_look(&gate, &caller->pass, GB_ROOT, path, (size_t)len, GB_FOLLOW, &found);
        end_wait(caller, wait);
    }
    return NULL;
}

static int later(const void *one, const void *other)
{
    double first = *(const double *)one, second = *(const double *)other;
    return (first > second) - (first < second);
}

static void begin(struct caller *caller, void *(*work)(void *))
{
    memset(caller, 0, sizeof *caller);
    caller->waited = malloc(MOST * sizeof *caller->waited);
    must(caller->waited && gb_pass_split(&pass, &caller->pass) == 0, "split");
    must(pthread_create(&caller->thread, NULL, work, caller) == 0, "a thread");
}

static void end(struct caller *caller)
{
    pthread_join(caller->thread, NULL);
    must(gb_pass_join(&pass, &caller->pass) == 0 && caller->calls > 0, "a caller");
    qsort(caller->waited, (size_t)caller->calls, sizeof *caller->waited, later);
}

static void tell(const char *what, const struct caller *caller)
{
    printf("  %s %8.3f %8.1f %4ld", what, caller->waited[caller->calls / 2], caller->waited[caller->calls - 1],
           caller->passed);
}

/* Answers how many lists ended within one wait at most. */
static long measure(int hogs, unsigned seconds)
{
    struct caller listers[HOGS], changer, looker;
    atomic_store(&ended, 0);
    for (int i = 0; i < hogs; i++)
        begin(&listers[i], list);
    begin(&changer, change);
    begin(&looker, miss);
    sleep(seconds);
    atomic_store(&ended, 1);
    for (int i = 0; i < hogs; i++) {
        pthread_join(listers[i].thread, NULL);
        must(gb_pass_join(&pass, &listers[i].pass) == 0, "join");
        free(listers[i].waited);
    }
    end(&changer);
    end(&looker);
    printf("%d %-7s", hogs, gate.now ? "tickets" : "none");
    tell("changes", &changer);
    tell("misses", &looker);
    printf("\n");
    free(changer.waited);
    free(looker.waited);
    return most(changer.passed, looker.passed);
}

int main(int count, char **words)
{
    long names = count > 1 ? atol(words[1]) : NAMES;
    unsigned seconds = count > 2 ? (unsigned)atoi(words[2]) : SECONDS;
    int is_with_tickets_alone = count > 3 && strcmp(words[3], "tickets") == 0;
    struct gb_found found;
    char path[32];
    gate = gb_gate_new();
    must(gb_cache_new(BUCKETS, INODES, &pass) == 0 && gb_mkdir(&gate, &pass, GB_ROOT, "/long", 5, &found) == 0, "a cache");
    for (long i = 0; i < names; i++)
        must(gb_create(&gate, &pass, GB_ROOT, path, (size_t)sprintf(path, "/long/%ld", i), &found) == 0, "a name");
    printf("milliseconds waited, median and longest, and lists at most, beside threads that list %ld names:\n", names);
    long passed = 0, without = 0;
    for (int hogs = 1; hogs <= HOGS; hogs++) {
        gate.now = CLOCK;
        passed = most(passed, measure(hogs, seconds));
        gate.now = NULL;
        if (!is_with_tickets_alone)
            without = most(without, measure(hogs, seconds));
    }
    for (int hogs = 1; hogs <= HOGS && is_with_tickets_alone && passed > MOST_LISTS; hogs++)
        without = most(without, measure(hogs, seconds));
    return gb_close(&pass) != 0 || (passed > MOST_LISTS && FEWER * passed > without);
}

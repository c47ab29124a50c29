/* Four threads make, rename, link and unlink names in one directory, by the blocking forms. Each has names of its own, so
 * that no change may be refused. In the end the directory is empty, and as many changes were made as were asked for.
 * Prints the same whatever the schedule.
 */
#include <gigbewu.h>
#include <pthread.h>
#include <stdio.h>
#include <stdlib.h>
#include <string.h>

enum { ROOT = 1, THREADS = 4, ROUNDS = 20000, CHANGES = 5 };

struct worker {
    pthread_t thread;
    struct gb_pass pass;
    char first[8], second[8], third[8];
};

static struct gb_gate gate;

static void must(int right, const char *what)
{
    if (!right) {
        printf("%s: not as it should be\n", what);
        exit(1);
    }
}

static void unlink_one(struct worker *worker, const char *path, uint32_t last)
{
    struct gb_found found;
    struct gb_gone gone;
    must(gb_unlink(&gate, &worker->pass, ROOT, path, strlen(path), &found, &gone) == 0, "unlink");
    must(gone.kind == GB_FILE && gone.last == last, "what unlink took away");
}

/* Makes the first name, renames it to the second, gives it the third, and unlinks both. */
static void change(struct worker *worker)
{
    const char *first = worker->first, *second = worker->second, *third = worker->third;
    size_t len = strlen(first);
    struct gb_found made, found;
    struct gb_gone gone;
    must(gb_create(&gate, &worker->pass, ROOT, first, len, &made) == 0, "create");
    must(gb_rename(&gate, &worker->pass, ROOT, first, len, second, len, 0, &found, &gone) == 0, "rename");
    must(gone.number == 0, "what rename took away");
    must(gb_link(&gate, &worker->pass, ROOT, second, len, third, len, &found) == 0, "link");
    must(gb_look(&gate, &worker->pass, ROOT, third, len, GB_FOLLOW, &found) == 0, "look");
    must(found.number == made.number && found.at > made.at, "what look found");
    unlink_one(worker, second, 0);
    unlink_one(worker, third, 1);
}

static void *work(void *given)
{
    struct worker *worker = given;
    for (int i = 0; i < ROUNDS; i++)
        change(worker);
    return NULL;
}

static void begin(struct gb_pass *pass, struct worker *worker, int number)
{
    memset(worker, 0, sizeof *worker);
    snprintf(worker->first, sizeof worker->first, "/a%d", number);
    snprintf(worker->second, sizeof worker->second, "/b%d", number);
    snprintf(worker->third, sizeof worker->third, "/c%d", number);
    must(gb_pass_split(pass, &worker->pass) == 0, "split");
    must(pthread_create(&worker->thread, NULL, work, worker) == 0, "a thread");
}

int main(void)
{
    struct gb_pass pass = {0};
    struct worker workers[THREADS];
    struct gb_found found;
    uint64_t clock;
    gate = gb_gate_new();
    must(gb_cache_new(64, THREADS + 1, &pass) == 0, "cache_new");
    for (int i = 0; i < THREADS; i++)
        begin(&pass, &workers[i], i);
    for (int i = 0; i < THREADS; i++) {
        pthread_join(workers[i].thread, NULL);
        must(gb_pass_join(&pass, &workers[i].pass) == 0, "join");
    }
    must(gb_stat(&gate, &pass, ROOT, "/", 1, &found) == 0 && found.count == 0, "an empty directory");
    must(gb_learn(&pass, 0, &clock) == 0 && clock == (uint64_t)THREADS * ROUNDS * CHANGES, "the number of changes");
    must(gb_close(&pass) == 0, "close");
    printf("%llu changes by %d threads, none lost\n", (unsigned long long)clock, THREADS);
    return 0;
}

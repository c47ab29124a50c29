/* How look-ups of one name slow down while other threads look up names of its bucket, which push its row out.
 *
 * usage: flooded [ROUNDS]
 *
 * One thread looks up a file in the root by gb_look, without a pause: alone, and while one, two or three others look up
 * names that nothing has: names of the same bucket of 1,024; names of all other buckets; names of the same bucket, in a
 * cache of their own. Each runs for half a second in each of ROUNDS rounds, 5 unless given. Prints the medians: its
 * look-ups a second in thousands, how many in a hundred of those that it makes alone in that round, how many in a
 * hundred the rows didn't answer, and the look-ups a second of the others.
 */
#include <gigbewu.h>
#include <pthread.h>
#include <stdatomic.h>
#include <stdio.h>
#include <stdlib.h>
#include <string.h>
#include <time.h>

enum { THREADS = 3, BUCKETS = 1024, INODES = 1024, NAMES = 64, LETTERS = 24, ROUNDS = 5, MOST_ROUNDS = 99 };

static const double SECONDS = 0.5;

enum way { SAME_BUCKET, OTHER_BUCKETS, OWN_CACHE, WAYS };

static const char *const TOLD[WAYS] = {"names of the same bucket", "names of other buckets", "a cache of their own"};
static const char VICTIM[] = "victim";

struct flooder {
    pthread_t thread;
    struct gb_pass pass;
    struct gb_gate *gate;
    char names[NAMES][LETTERS];
    unsigned long looks;
};

/* What one run tells. */
enum figure { LOOKS, OF_ALONE, MISSED, THEIRS, FIGURES };

struct told {
    double each[FIGURES];
};

static atomic_int ended;

static void must(int right, const char *what)
{
    if (!right) {
        printf("flooded: %s fails\n", what);
        exit(1);
    }
}

static double now(void)
{
    struct timespec time;
    clock_gettime(CLOCK_MONOTONIC, &time);
    return (double)time.tv_sec + (double)time.tv_nsec / 1e9;
}

/* The bucket of a name in the root, by 64-bit FNV-1a over the eight bytes of the root's number and the name. */
static unsigned bucket_of(const char *name)
{
    uint64_t hash = 0xcbf29ce484222325u;
    for (int byte = 0; byte < 8; byte++)
        hash = (hash ^ (byte == 0 ? GB_ROOT : 0)) * 0x100000001b3u;
    for (; *name; name++)
        hash = (hash ^ (unsigned char)*name) * 0x100000001b3u;
    return (unsigned)(hash % BUCKETS);
}

/* Names of the victim's bucket, or of all but that. No two flooders have one. */
static void choose(struct flooder *flooder, int number, enum way way)
{
    int is_same = way != OTHER_BUCKETS;
    for (long at = 0, found = 0; found < NAMES; at++) {
        snprintf(flooder->names[found], LETTERS, "%d-%ld", number, at);
        found += (bucket_of(flooder->names[found]) == bucket_of(VICTIM)) == is_same;
    }
}

static void *flood(void *given)
{
    struct flooder *flooder = given;
    struct gb_found found;
    while (!atomic_load_explicit(&ended, memory_order_relaxed)) {
        const char *name = flooder->names[flooder->looks++ % NAMES];
        gb_look(flooder->gate, &flooder->pass, GB_ROOT, name, strlen(name), GB_FOLLOW, &found);
    }
    return NULL;
}

/* gb_look, which also counts what the rows don't answer. */
static struct told look_for(struct gb_gate *gate, struct gb_pass *pass, double seconds)
{
    struct told told = {{0}};
    struct gb_found found;
    double end = now() + seconds;
    do {
        int answer = gb_look_fast(pass, GB_ROOT, VICTIM, sizeof VICTIM - 1, GB_FOLLOW, &found);
        if (answer == GB_AGAIN) {
            told.each[MISSED]++;
            answer = gb_look_missed(gate, pass, GB_ROOT, VICTIM, sizeof VICTIM - 1, GB_FOLLOW, &found);
        }
        must(answer == 0, "a look-up");
        told.each[LOOKS]++;
    } while (now() < end);
    return told;
}

static struct told measure(enum way way, int threads)
{
    static struct flooder flooders[THREADS];
    struct gb_gate gate = gb_gate_new(), own_gate = gb_gate_new();
    struct gb_pass pass = {0}, own = {0};
    struct gb_found found;
    must(gb_cache_new(BUCKETS, INODES, &pass) == 0 && gb_cache_new(BUCKETS, INODES, &own) == 0, "gb_cache_new");
    must(gb_create(&gate, &pass, GB_ROOT, VICTIM, sizeof VICTIM - 1, &found) == 0, "gb_create");
    memset(flooders, 0, sizeof flooders);
    atomic_store(&ended, 0);
    for (int at = 0; at < threads; at++) {
        choose(&flooders[at], at, way);
        flooders[at].gate = way == OWN_CACHE ? &own_gate : &gate;
        must(gb_pass_split(way == OWN_CACHE ? &own : &pass, &flooders[at].pass) == 0, "gb_pass_split");
        must(pthread_create(&flooders[at].thread, NULL, flood, &flooders[at]) == 0, "pthread_create");
    }
    struct told told = look_for(&gate, &pass, SECONDS);
    atomic_store(&ended, 1);
    for (int at = 0; at < threads; at++) {
        pthread_join(flooders[at].thread, NULL);
        told.each[THEIRS] += (double)flooders[at].looks / SECONDS / 1e3;
        must(gb_close(&flooders[at].pass) == 0, "gb_close");
    }
    must(gb_close(&pass) == 0 && gb_close(&own) == 0, "gb_close");
    told.each[MISSED] *= 100 / told.each[LOOKS];
    told.each[LOOKS] /= SECONDS * 1e3;
    return told;
}

static int later(const void *one, const void *other)
{
    double first = *(const double *)one, second = *(const double *)other;
    return (first > second) - (first < second);
}

static double median_of(const struct told *rounds, int count, enum figure figure)
{
    double sorted[MOST_ROUNDS];
    for (int round = 0; round < count; round++)
        sorted[round] = rounds[round].each[figure];
    qsort(sorted, (size_t)count, sizeof *sorted, later);
    return sorted[count / 2];
}

static void tell(int threads, const char *what, const struct told *rounds, int count)
{
    printf("%7d  %-24s %9.0f %8.0f %8.2f %11.0f\n", threads, what, median_of(rounds, count, LOOKS),
           median_of(rounds, count, OF_ALONE), median_of(rounds, count, MISSED), median_of(rounds, count, THEIRS));
}

int main(int count, char **words)
{
    static struct told alone[MOST_ROUNDS], beside[THREADS][WAYS][MOST_ROUNDS];
    int rounds = count > 1 ? atoi(words[1]) : ROUNDS;
    must(count <= 2 && rounds > 0 && rounds <= MOST_ROUNDS, "its usage");
    for (int round = 0; round < rounds; round++) {
        alone[round] = measure(SAME_BUCKET, 0);
        alone[round].each[OF_ALONE] = 100;
        for (int threads = 1; threads <= THREADS; threads++)
            for (enum way way = 0; way < WAYS; way++) {
                struct told told = measure(way, threads);
                told.each[OF_ALONE] = 100 * told.each[LOOKS] / alone[round].each[LOOKS];
                beside[threads - 1][way][round] = told;
            }
    }
    printf("%7s  %-24s %9s %8s %8s %11s\n", "threads", "that look up", "thousands", "of alone", "missed", "theirs");
    tell(0, "-", alone, rounds);
    for (int threads = 1; threads <= THREADS; threads++)
        for (enum way way = 0; way < WAYS; way++)
            tell(threads, TOLD[way], beside[threads - 1][way], rounds);
    return 0;
}

/* Times a peer's look-ups and changes, as `dcbench look` and `dcbench change` time those of the cache.
 *
 * usage: PEER read|absent|links|mixed|churn|change THREADS MILLISECONDS TREE
 *
 * TREE has the lines that `dcbench tree` writes. Each path that is asked is looked up once. Then each thread looks 64
 * of them up in a turn, in a random order, until the time is over. With `mixed` it renames a file of its own to and
 * fro after each 19 of them, with `churn` it makes, renames and unlinks one after each, and with `change` it looks none
 * up, but makes and unlinks a file in the root. It prints a line of JSON with the same words as dcbench.
 */
#define _GNU_SOURCE
#include "peer.h"
#include <pthread.h>
#include <stdint.h>
#include <stdio.h>
#include <stdlib.h>
#include <string.h>
#include <time.h>

enum { TURN = 64, LEAST_ORDER = 16384, MOST_THREADS = 64, MOST_TURNS = 1000000, LONGEST = 4200, MOST_PAIRS = 50 };

enum work { READ, ABSENT, LINKS, MIXED, CHURN, CHANGE, WORKS };

static const char *const work_names[WORKS] = {"read", "absent", "links", "mixed", "churn", "change"};

/* How many look-ups go before each change. */
static const size_t looks_to_a_change[WORKS] = {[MIXED] = 19, [CHURN] = 1};

/* How many files a thread changes in turns, by how many changes each. */
static const size_t pairs_of_a_thread[WORKS] = {[MIXED] = MOST_PAIRS, [CHURN] = 32, [CHANGE] = 1};
static const size_t changes_of_a_pair[WORKS] = {[MIXED] = 2, [CHURN] = 3, [CHANGE] = 2};

struct path {
    char *text;
    size_t length;
};

/* The two names of a file. */
struct pair {
    char *first, *second;
};

/* Each begins on a cache line of its own, since its thread writes to it all the time. */
struct worker {
    _Alignas(64) pthread_t thread;
    size_t number;
    uint64_t *turns;
    size_t turn_count;
    uint64_t looks, changes, found, nanoseconds;
    struct pair pairs[MOST_PAIRS];
    size_t pair_count;
};

static struct path *asked, *order;
static size_t asked_count, order_count;
static enum work kind;
static uint64_t limit;
static size_t thread_count;
static pthread_barrier_t gate;

static void give_up(const char *why)
{
    fprintf(stderr, "%s: %s\n", peer_name, why);
    exit(3);
}

static uint64_t now(void)
{
    struct timespec time;
    clock_gettime(CLOCK_MONOTONIC, &time);
    return (uint64_t)time.tv_sec * 1000000000u + (uint64_t)time.tv_nsec;
}

/* A path with something behind it. */
static char *with(const char *text, const char *ending)
{
    char *copy = malloc(strlen(text) + strlen(ending) + 1);
    if (!copy)
        give_up("no memory");
    return strcat(strcpy(copy, text), ending);
}

static void ask(const char *text, const char *ending)
{
    if (!(asked_count & (asked_count - 1)))
        asked = realloc(asked, (2 * asked_count + 1) * sizeof *asked);
    if (!asked)
        give_up("no memory");
    char *copy = with(text, ending);
    asked[asked_count++] = (struct path){copy, strlen(copy)};
}

/* Makes what a line of the tree names, and answers whether it could: `l TEXT PATH` is a link. */
static int make(const char *line)
{
    const char *path = strrchr(line, ' ');
    if (line[0] == 'l' && peer_link && path > line + 1) {
        char *text = with(line + 2, "");
        text[path - line - 2] = 0;
        return peer_link(with("/", text), with(path + 1, ""));
    }
    return strchr("dcf", line[0]) && peer_make(line[0] == 'd' ? 'd' : 'f', with(line + 2, ""));
}

/* Reads the tree. Files of lines with an f are asked, and the paths of lines with a p. */
static void read_tree(const char *name)
{
    static char line[2 * LONGEST];
    FILE *file = fopen(name, "r");
    if (!file)
        give_up("the tree can't be read");
    while (fgets(line, sizeof line, file)) {
        line[strcspn(line, "\n")] = 0;
        if (strlen(line) < 3 || (line[0] != 'p' && !make(line)))
            give_up("a line of the tree is refused");
        if (line[0] == 'f' || line[0] == 'p')
            ask(line + 2, kind == ABSENT ? ".no" : "");
    }
    fclose(file);
}

/* The next number of a fixed sequence. */
static uint64_t draw(void)
{
    static uint64_t state = 1;
    state = state * 6364136223846793005u + 1442695040888963407u;
    return state >> 33;
}

/* Puts the paths into the order in which they are looked up, and looks each up once. */
static void make_order(void)
{
    if (!asked_count)
        give_up("the tree has no files that are asked");
    for (size_t i = 0; i < asked_count; i++)
        peer_look(asked[i].text, asked[i].length);
    order_count = 4 * asked_count > LEAST_ORDER ? 4 * asked_count / TURN * TURN : LEAST_ORDER;
    order = malloc(order_count * sizeof *order);
    if (!order)
        give_up("no memory");
    for (size_t i = 0; i < order_count; i++)
        order[i] = asked[draw() % asked_count];
}

/* The files that a thread changes: every n-th of those that are asked, names beside them, or one in the root. */
static void own(struct worker *worker)
{
    char first[32], second[32];
    snprintf(first, sizeof first, kind == MIXED ? "" : ".of%zu", worker->number);
    snprintf(second, sizeof second, ".to%zu", worker->number);
    if (kind == CHANGE)
        worker->pairs[worker->pair_count++] = (struct pair){with("/", first), with("/", second)};
    for (size_t i = worker->number; i < asked_count && worker->pair_count < pairs_of_a_thread[kind]; i += thread_count)
        worker->pairs[worker->pair_count++] = (struct pair){with(asked[i].text, first), with(asked[i].text, second)};
}

/* The thread's next change. */
static void change(struct worker *worker)
{
    size_t steps = changes_of_a_pair[kind], step = worker->changes % steps;
    const struct pair *pair = &worker->pairs[worker->changes / steps % worker->pair_count];
    int made;
    if (kind == MIXED)
        made = step ? peer_rename(pair->second, pair->first) : peer_rename(pair->first, pair->second);
    else if (step == 0)
        made = peer_make('f', pair->first);
    else if (kind == CHURN)
        made = step == 1 ? peer_rename(pair->first, pair->second) : peer_unlink(pair->second);
    else
        made = peer_unlink(pair->first);
    if (!made)
        give_up("a change is refused");
    worker->changes++;
}

static void look_turn(struct worker *worker, const struct path *paths)
{
    size_t few = looks_to_a_change[kind];
    for (size_t i = 0; i < TURN; i++) {
        worker->found += (uint64_t)peer_look(paths[i].text, paths[i].length);
        if (few && (i % few == few - 1 || i == TURN - 1))
            change(worker);
    }
    worker->looks += TURN;
}

static void change_turn(struct worker *worker)
{
    for (size_t i = 0; i < TURN; i++)
        change(worker);
}

static void *work(void *argument)
{
    struct worker *worker = argument;
    size_t at = order_count / TURN / thread_count * worker->number;
    peer_enter();
    pthread_barrier_wait(&gate);
    uint64_t begin = now(), last = begin;
    do {
        uint64_t before = worker->looks + worker->changes;
        if (kind == CHANGE)
            change_turn(worker);
        else
            look_turn(worker, order + at++ % (order_count / TURN) * TURN);
        uint64_t end = now();
        if (worker->turn_count < MOST_TURNS)
            worker->turns[worker->turn_count++] = (end - last) * 1000 / (worker->looks + worker->changes - before);
        last = end;
    } while (last - begin < limit);
    worker->nanoseconds = last - begin;
    peer_leave();
    return NULL;
}

/* Runs the threads until the time is over. */
static void run(struct worker *workers)
{
    pthread_barrier_init(&gate, NULL, (unsigned)thread_count);
    for (size_t i = 0; i < thread_count; i++) {
        workers[i].number = i;
        own(&workers[i]);
        workers[i].turns = malloc(MOST_TURNS * sizeof *workers[i].turns);
        if (!workers[i].turns || pthread_create(&workers[i].thread, NULL, work, &workers[i]))
            give_up("no thread");
    }
    for (size_t i = 0; i < thread_count; i++)
        pthread_join(workers[i].thread, NULL);
}

static int compare(const void *a, const void *b)
{
    uint64_t x = *(const uint64_t *)a, y = *(const uint64_t *)b;
    return (x > y) - (x < y);
}

static void tell(const struct worker *workers)
{
    static struct worker all;
    double rate = 0;
    all.turns = malloc(thread_count * MOST_TURNS * sizeof *all.turns);
    if (!all.turns)
        give_up("no memory");
    for (size_t i = 0; i < thread_count; i++) {
        memcpy(all.turns + all.turn_count, workers[i].turns, workers[i].turn_count * sizeof *all.turns);
        all.turn_count += workers[i].turn_count;
        all.looks += workers[i].looks;
        all.changes += workers[i].changes;
        all.found += workers[i].found;
        rate += (double)(workers[i].looks + workers[i].changes) * 1e9 / (double)workers[i].nanoseconds;
    }
    qsort(all.turns, all.turn_count, sizeof *all.turns, compare);
    printf("{\"command\":\"look\",\"peer\":\"%s\",\"work\":\"%s\",\"threads\":%zu,\"median_ps\":%llu,\"p99_ps\":%llu,"
           "\"least_ps\":%llu,\"calls_a_second\":%.0f,\"looks\":%llu,\"changes\":%llu,\"found\":%llu}\n",
           peer_name, work_names[kind], thread_count, (unsigned long long)all.turns[all.turn_count / 2],
           (unsigned long long)all.turns[all.turn_count * 99 / 100], (unsigned long long)all.turns[0], rate,
           (unsigned long long)all.looks, (unsigned long long)all.changes, (unsigned long long)all.found);
}

/* Reads the words of the command line, and answers whether they are as they should be. */
static int read_words(int count, char **words)
{
    if (count != 5)
        return 0;
    while (kind < WORKS && strcmp(words[1], work_names[kind]))
        kind++;
    thread_count = strtoul(words[2], NULL, 10);
    limit = strtoull(words[3], NULL, 10) * 1000000u;
    return kind < WORKS && thread_count >= 1 && thread_count <= MOST_THREADS;
}

int main(int count, char **words)
{
    static struct worker workers[MOST_THREADS];
    if (!read_words(count, words)) {
        fprintf(stderr, "usage: %s read|absent|links|mixed|churn|change THREADS MILLISECONDS TREE\n", peer_name);
        return 2;
    }
    peer_begin();
    peer_enter();
    read_tree(words[4]);
    if (kind != CHANGE)
        make_order();
    peer_leave();
    run(workers);
    tell(workers);
    peer_end();
    return 0;
}

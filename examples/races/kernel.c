/* Races look-ups against renames on the kernel's file system.
 *
 * usage: kernel FOLDER rename|exchange DEPTH LOOKS LOOKERS
 *
 * It works in FOLDER, which exists and is empty, and leaves it empty. Each of LOOKERS threads looks a path up, by
 * faccessat, while one more thread renames a directory of it. The right answer is the same at each moment:
 *
 * rename: p becomes q, the file q/d/../f is made and unlinked, q becomes p again. The path p/d/../f never stands.
 * exchange: a and b swap their names. Each has a link l to the other's name, and only one of them has the file
 * d/../f. The path a/l/d/../f always leads to it.
 *
 * It prints the look-ups, how many answers were wrong, the changes, and the milliseconds.
 */
#define _GNU_SOURCE
#include <errno.h>
#include <fcntl.h>
#include <pthread.h>
#include <stdatomic.h>
#include <stdio.h>
#include <stdlib.h>
#include <string.h>
#include <sys/stat.h>
#include <sys/syscall.h>
#include <time.h>
#include <unistd.h>

enum { LONGEST_PATH = 4096, MOST_LOOKERS = 64, SWAP = 2 };

struct race {
    int folder;
    int swaps;
    long looks;
    int lookers;
    char asked[LONGEST_PATH];
    char made[LONGEST_PATH];
    pthread_barrier_t gate;
    atomic_long wrong;
    atomic_int done;
};

static void must(int right, const char *what)
{
    if (!right) {
        perror(what);
        exit(3);
    }
}

/* A path: the top, this many times d, and a last name if there is one. */
static void write_path(char *path, const char *top, int depth, const char *last)
{
    size_t used = (size_t)snprintf(path, LONGEST_PATH, "%s", top);
    for (int i = 0; i < depth; i++)
        used += (size_t)snprintf(path + used, LONGEST_PATH - used, "/d");
    if (last)
        snprintf(path + used, LONGEST_PATH - used, "/%s", last);
}

/* Makes the directories of a top down to a depth, or removes them. */
static void directories(const struct race *race, const char *top, int depth, int make)
{
    char path[LONGEST_PATH];
    for (int i = 0; i <= depth; i++) {
        write_path(path, top, make ? i : depth - i, NULL);
        if (make)
            must(mkdirat(race->folder, path, 0700) == 0, path);
        else
            must(unlinkat(race->folder, path, AT_REMOVEDIR) == 0, path);
    }
}

static void make_file(const struct race *race, const char *path)
{
    int file = openat(race->folder, path, O_CREAT | O_WRONLY, 0600);
    must(file >= 0, path);
    close(file);
}

static void rename_in(const struct race *race, const char *from, const char *to, unsigned flags)
{
    must(syscall(SYS_renameat2, race->folder, from, race->folder, to, flags) == 0, "renameat2");
}

static void *look(void *argument)
{
    struct race *race = argument;
    long wrong = 0;
    pthread_barrier_wait(&race->gate);
    for (long i = 0; i < race->looks / race->lookers; i++) {
        int found = faccessat(race->folder, race->asked, F_OK, 0) == 0;
        wrong += race->swaps ? !found : found || errno != ENOENT;
    }
    atomic_fetch_add(&race->wrong, wrong);
    atomic_fetch_add(&race->done, 1);
    return NULL;
}

static long change(struct race *race)
{
    long changes = 0;
    pthread_barrier_wait(&race->gate);
    while (atomic_load(&race->done) < race->lookers) {
        if (race->swaps) {
            rename_in(race, "a", "b", SWAP);
            changes += 1;
            continue;
        }
        rename_in(race, "p", "q", 0);
        make_file(race, race->made);
        must(unlinkat(race->folder, race->made, 0) == 0, race->made);
        rename_in(race, "q", "p", 0);
        changes += 4;
    }
    if (race->swaps && changes % 2)
        rename_in(race, "a", "b", SWAP);
    return changes;
}

static void set_up(struct race *race, int depth)
{
    if (!race->swaps) {
        directories(race, "p", depth, 1);
        write_path(race->asked, "p", depth, "f");
        write_path(race->made, "q", depth, "f");
        return;
    }
    directories(race, "a", depth, 1);
    directories(race, "b", depth, 1);
    must(symlinkat("../b", race->folder, "a/l") == 0, "a/l");
    must(symlinkat("../a", race->folder, "b/l") == 0, "b/l");
    write_path(race->asked, "a/l", depth, "f");
    write_path(race->made, "b", depth, "f");
    make_file(race, race->made);
}

static void take_down(struct race *race, int depth)
{
    if (!race->swaps) {
        directories(race, "p", depth, 0);
        return;
    }
    must(unlinkat(race->folder, race->made, 0) == 0, race->made);
    must(unlinkat(race->folder, "a/l", 0) == 0 && unlinkat(race->folder, "b/l", 0) == 0, "l");
    directories(race, "a", depth, 0);
    directories(race, "b", depth, 0);
}

static long milliseconds(void)
{
    struct timespec now;
    clock_gettime(CLOCK_MONOTONIC, &now);
    return now.tv_sec * 1000 + now.tv_nsec / 1000000;
}

int main(int count, char **words)
{
    static struct race race;
    pthread_t threads[MOST_LOOKERS];
    if (count != 6) {
        fputs("usage: kernel FOLDER rename|exchange DEPTH LOOKS LOOKERS\n", stderr);
        return 2;
    }
    race.folder = open(words[1], O_DIRECTORY | O_RDONLY);
    must(race.folder >= 0, words[1]);
    race.swaps = strcmp(words[2], "exchange") == 0;
    int depth = atoi(words[3]);
    race.looks = atol(words[4]);
    race.lookers = atoi(words[5]);
    if (depth < 0 || depth > 1000 || race.lookers < 1 || race.lookers > MOST_LOOKERS)
        return 2;
    set_up(&race, depth);
    pthread_barrier_init(&race.gate, NULL, (unsigned)race.lookers + 1);
    long begin = milliseconds();
    for (int i = 0; i < race.lookers; i++)
        must(pthread_create(&threads[i], NULL, look, &race) == 0, "pthread_create");
    long changes = change(&race);
    for (int i = 0; i < race.lookers; i++)
        pthread_join(threads[i], NULL);
    long took = milliseconds() - begin;
    take_down(&race, depth);
    printf("%ld %ld %ld %ld\n", race.looks, (long)race.wrong, changes, took);
    return 0;
}

/* Records calls on the kernel's file system until a look-up finds a path that never was.
 *
 * usage: record FOLDER DEPTH LOOKERS SECONDS
 *
 * It works in FOLDER, which exists and is empty, and leaves it empty. One thread renames p to q, makes and unlinks the
 * file q/d/../f, and renames q to p; LOOKERS more look p/d/../f up, which never stands, by stat. Each call is kept with
 * the time at which it began and had ended, the last few of each thread. Once a look-up has found the file, the calls
 * of the rounds about it are printed as a trace (docs/FORMATS.md), session 0 the thread that renames: first what made
 * the directories, then the changes from the beginning of a round on, and the last few look-ups of each thread.
 *
 * It ends with 1 if no look-up found the file within SECONDS.
 */
#define _GNU_SOURCE
#include <errno.h>
#include <fcntl.h>
#include <pthread.h>
#include <stdatomic.h>
#include <stdio.h>
#include <stdlib.h>
#include <string.h>
#include <sys/stat.h>
#include <time.h>
#include <unistd.h>

enum { LONGEST_PATH = 4096, MOST_LOOKERS = 14, KEPT = 1 << 12, ROUND = 4, ROUNDS = 3, LOOKS = 12 };

/* A call: when it began and ended, its errno or 0, and the inode that it made or found. */
struct call {
    long start, end;
    int error;
    ino_t inode;
};

struct log {
    struct call calls[KEPT];
    long made;
};

struct race {
    int folder, lookers;
    char asked[LONGEST_PATH], file[LONGEST_PATH];
    pthread_barrier_t gate;
    atomic_int done;
    struct log logs[MOST_LOOKERS + 1];
};

struct looker {
    struct race *race;
    struct log *log;
};

static void must(int right, const char *what)
{
    if (!right) {
        perror(what);
        exit(3);
    }
}

static long now(void)
{
    struct timespec time;
    clock_gettime(CLOCK_MONOTONIC, &time);
    return time.tv_sec * 1000000000L + time.tv_nsec;
}

/* A path: the top, this many times d, and a last name if there is one. */
static void write_path(char *path, const char *top, int depth, const char *last)
{
    size_t used = (size_t)snprintf(path, LONGEST_PATH, "%s", top);
    for (int i = 0; i < depth; i++)
        used += (size_t)snprintf(path + used, LONGEST_PATH - used, "/d");
    if (last)
        snprintf(path + used, LONGEST_PATH - used, "/%s", last);
}

static struct call *next_call(struct log *log)
{
    struct call *call = &log->calls[log->made % KEPT];
    *call = (struct call){.start = now()};
    return call;
}

static void ended(struct log *log, struct call *call, int result)
{
    call->error = result < 0 ? errno : 0;
    call->end = now();
    log->made += 1;
}

static void *look(void *argument)
{
    struct looker *looker = argument;
    struct race *race = looker->race;
    pthread_barrier_wait(&race->gate);
    while (!atomic_load(&race->done)) {
        struct stat found;
        struct call *call = next_call(looker->log);
        ended(looker->log, call, fstatat(race->folder, race->asked, &found, 0));
        if (call->error == 0) {
            call->inode = found.st_ino;
            atomic_store(&race->done, 1);
        }
    }
    return NULL;
}

static void rename_in(struct race *race, struct log *log, const char *from, const char *to)
{
    struct call *call = next_call(log);
    int result = renameat(race->folder, from, race->folder, to);
    ended(log, call, result);
    must(result == 0, "renameat");
}

static void change(struct race *race, struct log *log)
{
    rename_in(race, log, "p", "q");
    struct call *call = next_call(log);
    int file = openat(race->folder, race->file, O_CREAT | O_EXCL | O_WRONLY, 0600);
    ended(log, call, file);
    struct stat made;
    must(file >= 0 && fstat(file, &made) == 0, race->file);
    call->inode = made.st_ino;
    close(file);
    call = next_call(log);
    int result = unlinkat(race->folder, race->file, 0);
    ended(log, call, result);
    must(result == 0, race->file);
    rename_in(race, log, "q", "p");
}

/* The number that the file of an inode has in the trace: the directories have 2 and up, then each file one more. */
static long number_of(const struct log *log, long first, int depth, ino_t inode)
{
    for (long i = first; i < log->made; i++)
        if (i % ROUND == 1 && log->calls[i % KEPT].inode == inode)
            return depth + 3 + (i - first) / ROUND;
    return 0;
}

static void print_changes(const struct race *race, long first, int depth, long base)
{
    const struct log *log = &race->logs[0];
    for (long i = first; i < log->made; i++) {
        const struct call *call = &log->calls[i % KEPT];
        printf("%ld %ld 0 ", call->start - base, call->end - base);
        if (i % ROUND == 1)
            printf("create /%s = ok %ld\n", race->file, depth + 3 + (i - first) / ROUND);
        else if (i % ROUND == 2)
            printf("unlink /%s = ok\n", race->file);
        else
            printf("rename /%s /%s = ok\n", i % ROUND ? "q" : "p", i % ROUND ? "p" : "q");
    }
}

static void print_looks(const struct race *race, int looker, long first, int depth, long base)
{
    const struct log *log = &race->logs[looker + 1], *changes = &race->logs[0];
    long begin = log->made > LOOKS ? log->made - LOOKS : 0;
    for (long i = begin; i < log->made; i++) {
        const struct call *call = &log->calls[i % KEPT];
        if (call->start < changes->calls[first % KEPT].start)
            continue;
        printf("%ld %ld %d look /%s = ", call->start - base, call->end - base, looker + 1, race->asked);
        if (call->error)
            printf("no %d\n", call->error);
        else
            printf("is %ld file\n", number_of(changes, first, depth, call->inode));
    }
}

/* When the look-up began that found the file. */
static long found_at(const struct race *race)
{
    long start = now();
    for (int i = 1; i <= race->lookers; i++) {
        const struct log *log = &race->logs[i];
        const struct call *last = &log->calls[(log->made + KEPT - 1) % KEPT];
        if (log->made > 0 && last->error == 0 && last->start < start)
            start = last->start;
    }
    return start;
}

/* The first change of the round in which the trace begins: some rounds back, and before that look-up. */
static long first_change(const struct race *race)
{
    const struct log *log = &race->logs[0];
    long first = log->made - ROUND * ROUNDS, start = found_at(race);
    while (first > 0 && first > log->made - KEPT + ROUND && log->calls[first % KEPT].start > start)
        first -= ROUND;
    return first > 0 ? first : 0;
}

/* The trace from the beginning of a round on. */
static void print(const struct race *race, int depth)
{
    const struct log *changes = &race->logs[0];
    long first = first_change(race);
    long base = changes->calls[first % KEPT].start - 2 * (depth + 1);
    for (int i = 0; i <= depth; i++) {
        char path[LONGEST_PATH];
        write_path(path, "p", i, NULL);
        printf("%d %d 0 mkdir /%s = ok %d\n", 2 * i, 2 * i + 1, path, i + 2);
    }
    print_changes(race, first, depth, base);
    for (int i = 0; i < race->lookers; i++)
        print_looks(race, i, first, depth, base);
}

static void directories(const struct race *race, int depth, int make)
{
    char path[LONGEST_PATH];
    for (int i = 0; i <= depth; i++) {
        write_path(path, "p", make ? i : depth - i, NULL);
        must((make ? mkdirat(race->folder, path, 0700) : unlinkat(race->folder, path, AT_REMOVEDIR)) == 0, path);
    }
}

int main(int count, char **words)
{
    static struct race race;
    pthread_t threads[MOST_LOOKERS];
    struct looker lookers[MOST_LOOKERS];
    if (count != 5) {
        fputs("usage: record FOLDER DEPTH LOOKERS SECONDS\n", stderr);
        return 2;
    }
    int depth = atoi(words[2]);
    race.folder = open(words[1], O_DIRECTORY | O_RDONLY);
    must(race.folder >= 0, words[1]);
    race.lookers = atoi(words[3]);
    if (depth < 0 || depth > 1000 || race.lookers < 1 || race.lookers > MOST_LOOKERS)
        return 2;
    directories(&race, depth, 1);
    write_path(race.asked, "p", depth, "f");
    write_path(race.file, "q", depth, "f");
    pthread_barrier_init(&race.gate, NULL, (unsigned)race.lookers + 1);
    for (int i = 0; i < race.lookers; i++) {
        lookers[i] = (struct looker){&race, &race.logs[i + 1]};
        must(pthread_create(&threads[i], NULL, look, &lookers[i]) == 0, "pthread_create");
    }
    pthread_barrier_wait(&race.gate);
    long until = now() + atol(words[4]) * 1000000000L;
    while (!atomic_load(&race.done) && now() < until)
        change(&race, &race.logs[0]);
    int found = atomic_exchange(&race.done, 1);
    for (int i = 0; i < race.lookers; i++)
        pthread_join(threads[i], NULL);
    directories(&race, depth, 0);
    if (found)
        print(&race, depth);
    return !found;
}

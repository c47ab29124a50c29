/* Records the calls that threads make below a mounted file system, each with its times, as a trace for the checker.
 *
 * usage: judge DIR [--threads N] [--seconds S] [--calls N] [--seed N] [--depth N] [--mix CALL=N,..]
 *
 * It makes a folder of its own below DIR, works nowhere else, and removes it, also after a fault and when it has
 * to stop (SIGINT, SIGTERM, SIGHUP). The trace (docs/FORMATS.md) goes to standard output, that folder its root. It ends
 * with 0; with 2 for wrong words; with 3 if memory or a thread was refused; with 4 if a call failed by no fault of its
 * path (EIO, ENOSPC, EINTR ..), the folder can't be made or removed, or the trace not be written; or told to stop, by
 * that signal. Only if it ends with 0 is there a whole trace.
 */
#define _GNU_SOURCE
#include <errno.h>
#include <fcntl.h>
#include <ftw.h>
#include <getopt.h>
#include <inttypes.h>
#include <pthread.h>
#include <sched.h>
#include <signal.h>
#include <stdarg.h>
#include <stdatomic.h>
#include <stdio.h>
#include <stdlib.h>
#include <string.h>
#include <sys/stat.h>
#include <time.h>
#include <unistd.h>

enum { MOST_THREADS = 16, MANY_CALLS = 1000000, MOST_CALLS = 10 * MANY_CALLS, LONGEST_TIME = 86400, DEEPEST = 4 };
enum { NAMES = 4, FREE_MOVES = 64, LONGEST = 24, LONGEST_FOLDER = 4096, SECOND = 1000000000, TICK = 10000000 };
enum { WRONG_WORDS = 2, REFUSED = 3, FAULT = 4 };

/* What is called, in the order in which it is found out whether the mount has it. */
enum verb {
    LOOK, LLOOK, MKDIR, OPEN, CREATE, LINK, SYMLINK, READLINK, EXCHANGE, NO_REPLACE, RENAME, UNLINK, RMDIR, VERBS
};

/* What a call does: it tells what it found; names an inode, which is to be told; may take a name away; moves one. */
enum { TELLS = 1, GIVES = 2, TAKES = 4, MOVES = 8 };

/* Which names a call mostly asks of: a and b are mostly directories, c and d mostly not. */
enum likes { DIRECTORIES, OTHERS, ANY };

/* Each by its word of --mix and that of the trace, with how often it is called if --mix isn't given, what its last name
 * mostly is, what it does, the flags of its system call, and a call that shows whether the mount has it. */
static const struct {
    const char *word, *line;
    long weight;
    enum likes likes;
    int does, flags;
    const char *from, *to;
} verbs[VERBS] = {
    [LOOK] = {"look", "look", 20, ANY, TELLS, 0, "", ""},
    [LLOOK] = {"llook", "llook", 10, ANY, TELLS, AT_SYMLINK_NOFOLLOW, "", ""},
    [MKDIR] = {"mkdir", "mkdir", 12, DIRECTORIES, GIVES, 0, "a", ""},
    [OPEN] = {"open", "create", 5, OTHERS, GIVES, 0, "b", ""},
    [CREATE] = {"create", "create", 5, OTHERS, GIVES, 0, "c", ""},
    [LINK] = {"link", "link", 6, OTHERS, GIVES, 0, "b", "d"},
    [SYMLINK] = {"symlink", "symlink", 5, OTHERS, GIVES, 0, "b", "e"},
    [READLINK] = {"readlink", "readlink", 6, OTHERS, 0, 0, "e", ""},
    [EXCHANGE] = {"exchange", "rename2 x", 3, ANY, TAKES | MOVES, RENAME_EXCHANGE, "a", "b"},
    [NO_REPLACE] = {"no-replace", "rename2 n", 3, ANY, TAKES | MOVES, RENAME_NOREPLACE, "a", "f"},
    [RENAME] = {"rename", "rename", 9, ANY, TAKES | MOVES, 0, "b", "g"},
    [UNLINK] = {"unlink", "unlink", 12, OTHERS, TAKES, 0, "", ""},
    [RMDIR] = {"rmdir", "rmdir", 8, DIRECTORIES, TAKES, AT_REMOVEDIR, "", ""},
};

/* A call: when it began and had ended, its errno or 0, the inode that it made or found, if that is known. */
struct call {
    long start, end;
    ino_t number;
    mode_t mode;
    short error;
    unsigned char verb, known, session;
    char from[LONGEST], to[LONGEST];
};

struct actor {
    struct call *calls;
    long made, most, told;
    uint64_t random;
    pthread_t thread;
};

/* The recording. */
static struct {
    char path[LONGEST_FOLDER];
    int folder;
    long threads, seconds, calls, seed, depth, weights[VERBS], weight;
    atomic_long begun, ended; /* of the calls that may take a name away */
    atomic_int go, stop, running, status;
    struct actor actors[MOST_THREADS];
} judge = {.threads = 4, .seconds = 1, .calls = MANY_CALLS, .seed = 1, .depth = DEEPEST};

/* Ends the recording. The first fault is reported. */
__attribute__((format(printf, 2, 3))) static void fail(int status, const char *form, ...)
{
    int none = 0;
    va_list words;
    va_start(words, form);
    if (atomic_compare_exchange_strong(&judge.status, &none, status)) {
        fputs("judge: ", stderr);
        vfprintf(stderr, form, words);
        fputs("\n", stderr);
    }
    va_end(words);
    judge.stop = 1;
}

static void fail_call(const struct call *call, const char *why)
{
    fail(FAULT, "%s %s%s%s: %s", verbs[call->verb].word, call->from, *call->to ? " " : "", call->to, why);
}

static long now(void)
{
    struct timespec time;
    clock_gettime(CLOCK_MONOTONIC, &time);
    return time.tv_sec * SECOND + time.tv_nsec;
}

/* A number below this one, by splitmix64. */
static long below(struct actor *actor, long limit)
{
    uint64_t z = actor->random += 0x9e3779b97f4a7c15;
    z = (z ^ (z >> 30)) * 0xbf58476d1ce4e5b9;
    z = (z ^ (z >> 27)) * 0x94d049bb133111eb;
    return (long)((z ^ (z >> 31)) % (uint64_t)limit);
}

/* A path of a few names, and how deep it leads, links aside. Each dot-dot stands directly behind a name, also in a
 * link's text, and neither ends in dot-dot: so what it is asked of lies below the folder, whatever other threads
 * rename, and no walk climbs out of the folder. */
static long choose_path(struct actor *actor, char *path, enum likes likes)
{
    long depth = 0;
    for (long names = 1 + below(actor, 1 + below(actor, judge.depth)); names > 0; names--) {
        enum likes liked = names > 1 ? DIRECTORIES : likes;
        long name = below(actor, NAMES);
        if (liked != ANY && below(actor, 5) > 0)
            name = name % 2 + 2 * (liked == OTHERS);
        int climbs = names > 1 && below(actor, 8) == 0;
        path += sprintf(path, "%c%s%s", (char)('a' + name), climbs ? "/.." : "", names > 1 ? "/" : "");
        depth += !climbs;
    }
    return depth;
}

/* Chooses the next call. Most renames lead no deeper, and most exchanges are of one depth: else directories would be
 * moved below what any path here reaches, more and more of them. */
static struct call *choose_call(struct actor *actor)
{
    struct call *call = &actor->calls[actor->made];
    call->session = (unsigned char)(actor - judge.actors);
    for (long at = below(actor, judge.weight); at >= judge.weights[call->verb]; call->verb++)
        at -= judge.weights[call->verb];
    enum likes likes = verbs[call->verb].likes;
    int moves = verbs[call->verb].does & MOVES, freely = moves && below(actor, FREE_MOVES) == 0;
    long from, to = 0;
    do {
        from = choose_path(actor, call->from, call->verb == SYMLINK ? ANY : likes);
        if (moves || call->verb == LINK || call->verb == SYMLINK)
            to = choose_path(actor, call->to, likes);
    } while (moves && !freely && (to > from || (call->verb == EXCHANGE && to != from)));
    return call;
}

/* Makes a call. Answers below 0 with errno if it was refused, else what was opened, or the length of a link's text. */
static int ask(struct call *call, struct stat *found)
{
    const char *from = call->from, *to = call->to;
    int folder = judge.folder, flags = verbs[call->verb].flags;
    switch (call->verb) {
    case LOOK: case LLOOK: return fstatat(folder, from, found, flags);
    case READLINK: return (int)readlinkat(folder, from, call->to, LONGEST - 1);
    case LINK: return linkat(folder, from, folder, to, flags);
    case MKDIR: return mkdirat(folder, from, 0700);
    case CREATE: return mknodat(folder, from, S_IFREG | 0600, 0);
    case OPEN: return openat(folder, from, O_CREAT | O_EXCL | O_WRONLY | O_CLOEXEC, 0600);
    case SYMLINK: return symlinkat(from, folder, to);
    case UNLINK: case RMDIR: return unlinkat(folder, from, flags);
    default: return renameat2(folder, from, folder, to, flags);
    }
}

/* Makes a call, and notes its times and its answer. The number of an inode that it has just named is told by the file,
 * if that is open. Else it is that of what the name leads to now, if nothing can have been taken away since the call
 * began: none of the calls that may do so ran then, nor began. Of the two counts of these the one of calls that ended
 * is read first: if both are one number, no such call ran as the second was read. */
static void perform(struct call *call)
{
    struct stat found = {0};
    int does = verbs[call->verb].does;
    long ended = judge.ended, begun = judge.begun;
    judge.begun += (does & TAKES) != 0;
    call->start = now();
    int result = ask(call, &found);
    call->error = (short)(result < 0 ? errno : 0);
    call->end = now();
    judge.ended += (does & TAKES) != 0;
    if (result >= 0 && call->verb == OPEN) {
        call->known = fstat(result, &found) == 0;
        close(result);
    } else if (result >= 0 && does & GIVES) {
        const char *path = *call->to ? call->to : call->from;
        call->known = fstatat(judge.folder, path, &found, AT_SYMLINK_NOFOLLOW) == 0;
        call->known &= ended == begun && judge.begun == begun;
    } else if (result >= 0 && call->verb == READLINK && (!*call->to || strspn(call->to, "abcd./") != (size_t)result)) {
        fail_call(call, "a text that no call gave");
    }
    call->number = found.st_ino;
    call->mode = found.st_mode;
}

/* The errors that are of the tree of names, so that they belong into the trace, and those by which a mount says that
 * it doesn't have a call, or not what was to be made for it. */
static const char of_names[] = {EPERM, ENOENT, EBUSY, EEXIST, ENOTDIR, EISDIR, EINVAL, EMLINK, ENAMETOOLONG, ENOTEMPTY,
    ELOOP, 0};
static const char of_lacks[] = {EPERM, ENOSYS, EOPNOTSUPP, EINVAL, EMLINK, ENOENT, 0};

static void *act(void *argument)
{
    struct actor *actor = argument;
    while (!judge.go && !judge.stop)
        sched_yield();
    for (; !judge.stop && actor->made < actor->most; actor->made++) {
        struct call *call = choose_call(actor);
        perform(call);
        if (!strchr(of_names, call->error))
            fail_call(call, strerror(call->error));
    }
    judge.running--;
    return NULL;
}

/* Finds out which calls the mount has, and leaves out the others. What is made here goes again at once. */
static void find_out(void)
{
    for (int verb = 0; verb < VERBS && !judge.status; verb++) {
        struct call call = {.verb = (unsigned char)verb};
        struct stat found;
        strcpy(call.from, verbs[verb].from);
        strcpy(call.to, verbs[verb].to);
        int result = *call.from ? ask(&call, &found) : 0, error = errno;
        if (result >= 0 && verb == OPEN)
            close(result);
        if (result < 0 && !strchr(of_lacks, error))
            fail_call(&call, strerror(error));
        else if (result < 0 && judge.weights[verb])
            fprintf(stderr, "judge: left out: %s (%s)\n", verbs[verb].word, strerror(error));
        judge.weights[verb] *= result >= 0;
        judge.weight += judge.weights[verb];
    }
    for (char name[] = "a"; *name <= 'g'; ++*name)
        if (unlinkat(judge.folder, name, 0) != 0)
            unlinkat(judge.folder, name, AT_REMOVEDIR);
    if (judge.weight == 0)
        fail(FAULT, "the mount has none of these calls");
}

/* Starts the threads, lets them go once all are there, and waits for them. Answers the signal that asked for an end, or
 * 0. A second one doesn't wait for calls that hang. */
static int record(const sigset_t *signals)
{
    struct timespec tick = {0, TICK};
    long started = 0;
    int told = 0;
    for (; started < judge.threads && !judge.stop; started++, judge.running++) {
        struct actor *actor = &judge.actors[started];
        actor->random = (uint64_t)judge.seed * MOST_THREADS + (uint64_t)started;
        actor->most = judge.calls / judge.threads + (started < judge.calls % judge.threads);
        actor->calls = calloc((size_t)actor->most + 1, sizeof *actor->calls);
        int error = actor->calls ? pthread_create(&actor->thread, NULL, act, actor) : ENOMEM;
        if (error) {
            fail(REFUSED, "a thread of %ld calls: %s", actor->most, strerror(error));
            break;
        }
    }
    judge.go = 1;
    for (long until = now() + judge.seconds * SECOND; judge.running;) {
        int signal = sigtimedwait(signals, NULL, &tick);
        if (signal > 0 && told) {
            fprintf(stderr, "judge: calls hang; %s is left as it is\n", judge.path);
            _exit(FAULT);
        }
        told = signal > 0 ? signal : told;
        if (told || now() >= until)
            judge.stop = 1;
    }
    for (long i = 0; i < started; i++)
        pthread_join(judge.actors[i].thread, NULL);
    return told;
}

static int remove_one(const char *path, const struct stat *about, int kind, struct FTW *place)
{
    (void)about, (void)kind, (void)place;
    return remove(path);
}

static void print(const struct call *call, long base)
{
    const char *kind = S_ISDIR(call->mode) ? "dir" : S_ISLNK(call->mode) ? "link" : "file";
    printf("%ld %ld %d %s %s%s", call->start - base, call->end - base, call->session, verbs[call->verb].line,
        call->verb == SYMLINK ? "" : "/", call->from);
    if (*call->to && call->verb != READLINK)
        printf(" /%s", call->to);
    if (call->error)
        printf(" = no %d\n", call->error);
    else if (verbs[call->verb].does & TELLS)
        printf(" = is %ju %s\n", (uintmax_t)call->number, kind);
    else if (call->verb == READLINK)
        printf(" = text %s\n", call->to);
    else if (call->known)
        printf(" = ok %ju\n", (uintmax_t)call->number);
    else
        puts(" = ok");
}

/* Of the calls that aren't written yet the one that began first. */
static const struct call *next_told(void)
{
    struct actor *first = NULL;
    for (struct actor *actor = judge.actors; actor < judge.actors + judge.threads; actor++)
        if (actor->told < actor->made && (!first || actor->calls[actor->told].start < first->calls[first->told].start))
            first = actor;
    return first ? &first->calls[first->told++] : NULL;
}

/* Writes the calls in the order of their times, and tells how many there are, how many were refused, and how many ran
 * at the same time as another. */
static void write_trace(void)
{
    long many = 0, refused = 0, beside = 0, busy = 0, base = 0;
    int is_beside = 1;
    for (const struct call *call, *last = NULL; (call = next_told()); last = call, many++) {
        base = last ? base : call->start;
        print(call, base);
        refused += call->error != 0;
        beside += !is_beside && call->start < last->end;
        is_beside = call->start < busy;
        beside += is_beside;
        busy = call->end > busy ? call->end : busy;
    }
    if (fflush(stdout) != 0 || ferror(stdout))
        fail(FAULT, "the trace can't be written: %s", strerror(errno));
    fprintf(stderr, "judge: calls %ld, refused %ld, beside another %ld\n", many, refused, beside);
}

/* Says what is wrong, if anything is, and how the program is used, and ends it. */
static _Noreturn void explain(const char *wrong)
{
    FILE *out = wrong ? stderr : stdout;
    if (wrong)
        fprintf(out, "judge: %s\n", wrong);
    fputs("usage: judge DIR [--threads N] [--seconds S] [--calls N] [--seed N] [--depth N] [--mix CALL=N,..]\n"
          "  --threads N    1 to 16 threads, 4 by default\n"
          "  --seconds S    ends after S seconds, 1 by default, at most 86400\n"
          "  --calls N      ends after N calls of all threads together, 1000000 by default, at most 10000000\n"
          "  --seed N       which calls are chosen, 1 by default; when they meet is the machine's choice\n"
          "  --depth N      how many names a path has at most, 4 by default and at most; 1: no dot-dot either\n"
          "  --mix C=N,..   how often each is called; what isn't named isn't called. By default:\n", out);
    for (int verb = 0; verb < VERBS; verb++)
        fprintf(out, "%s%s=%ld%s", verb % 7 ? "" : "                 ", verbs[verb].word, verbs[verb].weight,
            verb + 1 == VERBS ? "\n" : verb % 7 == 6 ? ",\n" : ",");
    exit(wrong ? WRONG_WORDS : 0);
}

/* A number of decimal digits within limits. */
static long number_in(const char *text, long least, long most)
{
    char *rest;
    long number = strtol(text, &rest, 10);
    if (*text < '0' || *text > '9' || *rest || number < least || number > most)
        explain("a number is none, or outside its limits");
    return number;
}

static void read_mix(char *text)
{
    memset(judge.weights, 0, sizeof judge.weights);
    for (char *rest, *part = strtok_r(text, ",", &rest); part; part = strtok_r(NULL, ",", &rest)) {
        size_t word = strcspn(part, "=");
        int verb = 0;
        while (verb < VERBS && (strncmp(part, verbs[verb].word, word) != 0 || verbs[verb].word[word]))
            verb++;
        if (!part[word] || verb == VERBS)
            explain("--mix takes CALL=N,.. with the calls below");
        judge.weights[verb] = number_in(part + word + 1, 0, MOST_CALLS);
    }
}

/* Reads the words. Answers DIR. */
static const char *read_words(int count, char **words)
{
    static const struct option options[] = {{"threads", 1, 0, 't'}, {"seconds", 1, 0, 's'}, {"calls", 1, 0, 'c'},
        {"seed", 1, 0, 'e'}, {"depth", 1, 0, 'd'}, {"mix", 1, 0, 'm'}, {"help", 0, 0, 'h'}, {0}};
    for (int verb = 0; verb < VERBS; verb++)
        judge.weights[verb] = verbs[verb].weight;
    for (int option; (option = getopt_long(count, words, "", options, NULL)) != -1;)
        switch (option) {
        case 't': judge.threads = number_in(optarg, 1, MOST_THREADS); break;
        case 's': judge.seconds = number_in(optarg, 0, LONGEST_TIME); break;
        case 'c': judge.calls = number_in(optarg, 0, MOST_CALLS); break;
        case 'e': judge.seed = number_in(optarg, 0, INT32_MAX); break;
        case 'd': judge.depth = number_in(optarg, 1, DEEPEST); break;
        case 'm': read_mix(optarg); break;
        case 'h': explain(NULL);
        default: explain("wrong words");
        }
    if (optind + 1 != count)
        explain("one DIR is wanted");
    return words[optind];
}

int main(int count, char **words)
{
    static const int asking[] = {SIGINT, SIGTERM, SIGHUP};
    sigset_t signals;
    const char *dir = read_words(count, words);
    sigemptyset(&signals);
    for (int i = 0; i < 3; i++) {
        struct sigaction before;
        if (sigaction(asking[i], NULL, &before) == 0 && before.sa_handler != SIG_IGN)
            sigaddset(&signals, asking[i]);
    }
    pthread_sigmask(SIG_BLOCK, &signals, NULL);
    int length = snprintf(judge.path, sizeof judge.path, "%s/judge-XXXXXX", dir);
    if (length >= (int)sizeof judge.path || !mkdtemp(judge.path)) {
        fprintf(stderr, "judge: no folder can be made below %s: %s\n", dir, strerror(errno));
        return FAULT;
    }
    /* From here on the folder is removed, whatever comes, and no link in it is followed. */
    judge.folder = open(judge.path, O_DIRECTORY | O_RDONLY | O_NOFOLLOW | O_CLOEXEC);
    if (judge.folder < 0)
        fail(FAULT, "%s: %s", judge.path, strerror(errno));
    find_out();
    int told = record(&signals);
    close(judge.folder);
    if (nftw(judge.path, remove_one, MOST_THREADS, FTW_DEPTH | FTW_PHYS | FTW_MOUNT) != 0)
        fail(FAULT, "%s is left: %s", judge.path, strerror(errno));
    pthread_sigmask(SIG_UNBLOCK, &signals, NULL); /* one that came late ends the program here */
    if (told)
        raise(told);
    if (!judge.status)
        write_trace();
    return judge.status;
}

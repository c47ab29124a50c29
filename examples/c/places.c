/* Stops a call after each of its instructions, lets another pass do its work there, and lets the call go on. So each place
 * is met at which a call of another thread can fall: also between a row's count and its words, between two of these, and
 * while the lock is held. For x86-64: the trap flag stops the call, and in the handler of the signal a child of this process
 * does the work and makes the call to its end.
 *
 * A look-up of three names is stopped. Its rows are emptied and filled again with the same words: it must then answer as
 * ever, or from its first note to its last check with GB_WHY_CHANGED, and the next one answers. A directory on its way is
 * renamed, or exchanged with another, and a file made in it then: the path never leads to the file, so it must not be
 * found, nor by gb_try_resolve, which answers all the same. A call that takes the lock is stopped, and each call that tries
 * for it meanwhile answers GB_BUSY and writes what the header says. Prints the same whatever the number of instructions is.
 */
#define _GNU_SOURCE
#include <errno.h>
#include <gigbewu.h>
#include <signal.h>
#include <stdio.h>
#include <stdlib.h>
#include <string.h>
#include <sys/wait.h>
#include <ucontext.h>
#include <unistd.h>

enum { BUCKETS = 64, INODES = 100, TRAP_FLAG = 0x100, MARK = 77, ROOM = 8 };

/* How a child ends. */
enum { AS_EVER = 0, OTHERWISE = 1, WRONG = 2, ENDS };

static const char path[] = "/a/b/c";

static struct gb_pass pass, other;
static struct gb_found found;
static int (*work)(void);
static volatile int walking, is_child, worked;
/* How many children ended so, how the last one did, and how often the next one did otherwise. */
static volatile long ended[ENDS], turns;
static volatile int last;

static void must(int right, const char *what)
{
    if (!right) {
        printf("%s: not as it should be\n", what);
        exit(1);
    }
}

static void await(pid_t child)
{
    int status = 0;
    int end = waitpid(child, &status, 0) == child && WIFEXITED(status) ? WEXITSTATUS(status) : WRONG;
    end = end < ENDS ? end : WRONG;
    ended[end]++;
    turns += end != last;
    last = end;
}

/* The context's flags are those of the call. A signal of `raise` begins, that of the trap flag goes on. */
static void step(int number, siginfo_t *info, void *context)
{
    greg_t *flags = &((ucontext_t *)context)->uc_mcontext.gregs[REG_EFL];
    (void)number, (void)info;
    *flags &= ~(greg_t)TRAP_FLAG;
    if (!walking)
        return;
    pid_t child = fork();
    if (child == 0) {
        walking = 0;
        is_child = 1;
        worked = work();
    } else {
        await(child);
        *flags |= TRAP_FLAG;
    }
}

/* `judge` says how a child ends whose call got this answer. */
static void stop_everywhere(int (*call)(struct gb_pass *with), int (*work_of_child)(void), int (*judge)(int answer))
{
    work = work_of_child;
    turns = last = 0;
    memset((void *)ended, 0, sizeof ended);
    walking = 1;
    raise(SIGTRAP);
    int answer = call(&pass);
    walking = 0;
    if (is_child)
        _exit(worked ? judge(answer) : WRONG);
}

static int look(struct gb_pass *with)
{
    return gb_look_fast(with, GB_ROOT, path, sizeof path - 1, GB_FOLLOW, &found);
}

static int resolve(struct gb_pass *with)
{
    return gb_try_resolve(with, GB_ROOT, path, sizeof path - 1, GB_FOLLOW, &found);
}

static int count(struct gb_pass *with)
{
    return gb_try_stat(with, GB_ROOT, path, sizeof path - 1, &found);
}

/* By the other pass. */

static int look_other(const char *at)
{
    struct gb_found told;
    return gb_try_look(&other, GB_ROOT, at, strlen(at), GB_FOLLOW, &told);
}

static int make_directory(const char *at)
{
    struct gb_found told;
    return gb_try_mkdir(&other, GB_ROOT, at, strlen(at), &told);
}

/* Gives b the other name, and makes a file in it. All rows tell of it. */
static int move_and_make(const char *name, uint32_t flags, const char *file)
{
    struct gb_found told;
    struct gb_gone gone;
    return gb_try_rename(&other, GB_ROOT, "/a/b", 4, name, strlen(name), flags, &told, &gone) == 0 &&
           gb_try_create(&other, GB_ROOT, file, strlen(file), &told) == 0 && look_other(file) == 0 &&
           look_other(path) == ENOENT;
}

static int spoil(void)
{
    uint64_t emptied = 0;
    return gb_try_shrink(&other, UINT64_MAX, &emptied) == 0 && emptied == 3 && look_other(path) == 0;
}

static int rename_away(void)
{
    return move_and_make("/x", 0, "/x/c");
}

static int exchange(void)
{
    return move_and_make("/y", GB_EXCHANGE, "/y/c");
}

static int is_found(int answer)
{
    return answer == 0 && found.number == 4 && found.at == 3;
}

static int judge_spoiled(int answer)
{
    int changed = answer == GB_AGAIN && found.why == GB_WHY_CHANGED;
    if (!(changed || is_found(answer)) || !is_found(look(&pass)))
        return WRONG;
    return changed ? OTHERWISE : AS_EVER;
}

static int judge_moved(int answer)
{
    if (answer == GB_AGAIN)
        return found.why == GB_WHY_CHANGED ? OTHERWISE : WRONG;
    return answer == ENOENT ? AS_EVER : WRONG;
}

/* It asks the tree if the rows have changed, and always answers: before the two changes, or after them. */
static int judge_resolved(int answer)
{
    if (answer != ENOENT || (found.at != 3 && found.at != 5))
        return WRONG;
    return found.at == 5 ? OTHERWISE : AS_EVER;
}

/* What a call may write to. */
static struct gb_found told;
static struct gb_gone gone;
static uint64_t emptied, trail[3];
static char bytes[GB_PATH_MOST];
static struct gb_entry entry;

static void mark(void)
{
    const struct gb_found marked = {MARK, MARK, MARK, MARK, MARK};
    const struct gb_gone marked_gone = {MARK, MARK, MARK};
    told = marked;
    gone = marked_gone;
    emptied = MARK;
    trail[0] = MARK;
    entry.number = MARK;
    memset(bytes, '#', sizeof bytes);
}

/* With GB_BUSY nothing of `found` holds, and nothing is gone, and so they are 0; the rest is left as it was, but for the
 * places of a trail. */
static int is_busy(int answer, uint32_t went)
{
    const struct gb_found none = {0, 0, 0, 0, 0};
    int right = answer == GB_BUSY && memcmp(&told, &none, sizeof told) == 0 && emptied == MARK;
    right = right && gone.number == went && gone.kind == went && gone.last == went;
    right = right && memcmp(bytes, "########", ROOM) == 0 && entry.number == MARK;
    mark();
    return right;
}

static int are_busy(void)
{
    return is_busy(gb_try_look(&other, GB_ROOT, "/a", 2, GB_FOLLOW, &told), MARK) &&
           is_busy(gb_try_resolve(&other, GB_ROOT, "/m", 2, GB_FOLLOW, &told), MARK) &&
           is_busy(gb_try_look_along(&other, GB_ROOT, "/m", 2, GB_FOLLOW, trail, 1, &told), MARK) &&
           is_busy(gb_try_stat(&other, GB_ROOT, "/a", 2, &told), MARK) &&
           is_busy(gb_try_readlink(&other, GB_ROOT, "/a", 2, bytes, ROOM, &told), MARK) &&
           is_busy(gb_try_list(&other, GB_ROOT, "/a", 2, bytes, ROOM, &told), MARK) &&
           is_busy(gb_try_entries(&other, GB_ROOT, "/a", 2, "", 0, &entry, 1, &told), MARK) &&
           is_busy(gb_try_path_of(&other, GB_ROOT, bytes, sizeof bytes, &told), MARK) &&
           is_busy(gb_try_mkdir(&other, GB_ROOT, "/m", 2, &told), MARK) &&
           is_busy(gb_try_create(&other, GB_ROOT, "/m", 2, &told), MARK) &&
           is_busy(gb_try_symlink(&other, GB_ROOT, "m", 1, "/m", 2, &told), MARK) &&
           is_busy(gb_try_link(&other, GB_ROOT, "/a", 2, "/m", 2, &told), MARK) &&
           is_busy(gb_try_unlink(&other, GB_ROOT, "/a", 2, &told, &gone), 0) &&
           is_busy(gb_try_rmdir(&other, GB_ROOT, "/a", 2, &told, &gone), 0) &&
           is_busy(gb_try_rename(&other, GB_ROOT, "/a", 2, "/m", 2, 0, &told, &gone), 0);
}

/* A text that is no path is refused all the same, and what needs no lock answers. */
static int are_answered(void)
{
    return gb_try_look(&other, GB_ROOT, "", 0, GB_FOLLOW, &told) == ENOENT &&
           gb_try_look_along(&other, GB_ROOT, "", 0, GB_FOLLOW, trail, 1, &told) == ENOENT && trail[0] == MARK &&
           gb_try_look_along(&other, GB_ROOT, path, sizeof path - 1, GB_FOLLOW, trail, 3, &told) == 0 &&
           gb_look_fast_along(&other, GB_ROOT, path, sizeof path - 1, GB_FOLLOW, trail, 3, &told) == 0 &&
           gb_try_rename(&other, GB_ROOT, "/a", 2, "/m", 2, 4, &told, &gone) == GB_BAD_ARGUMENT && gone.number == MARK &&
           gb_look_fast(&other, GB_ROOT, path, sizeof path - 1, GB_FOLLOW, &told) == 0 &&
           gb_try_resolve(&other, GB_ROOT, path, sizeof path - 1, GB_FOLLOW, &told) == 0 &&
           gb_try_resolve(&other, GB_ROOT, "", 0, GB_FOLLOW, &told) == ENOENT &&
           gb_learn(&other, 0, &emptied) == 0 && emptied == 3;
}

static int held;

/* Shrinking by nothing tells whether the lock is held. */
static int try_all(void)
{
    mark();
    int answer = gb_try_shrink(&other, 0, &emptied);
    held = answer == GB_BUSY;
    return held ? emptied == MARK && are_busy() && are_answered() : answer == 0;
}

static int judge_held(int answer)
{
    if (!is_found(answer))
        return WRONG;
    return held ? OTHERWISE : AS_EVER;
}

/* `last_name` is made too, and rows filled. */
static void begin(const char *last_name)
{
    pass.at = other.at = NULL;
    must(gb_cache_new(BUCKETS, INODES, &pass) == 0 && gb_pass_split(&pass, &other) == 0, "a cache");
    must(make_directory("/a") == 0 && make_directory("/a/b") == 0 && make_directory(last_name) == 0, "directories");
    look_other(path);
}

static void end(const char *what, int one_stretch)
{
    must(ended[WRONG] == 0 && ended[AS_EVER] > 0 && ended[OTHERWISE] > 0, what);
    must(!one_stretch || turns == 2, what);
    must(gb_pass_join(&pass, &other) == 0 && gb_close(&pass) == 0, "close");
}

int main(void)
{
    struct sigaction action;
    memset(&action, 0, sizeof action);
    action.sa_sigaction = step;
    action.sa_flags = SA_SIGINFO;
    sigaction(SIGTRAP, &action, NULL);
    begin(path);
    stop_everywhere(look, spoil, judge_spoiled);
    end("rows filled again", 1);
    begin("/y");
    stop_everywhere(look, rename_away, judge_moved);
    end("a path that never was, by a rename", 0);
    begin("/y");
    stop_everywhere(look, exchange, judge_moved);
    end("a path that never was, by an exchange", 0);
    begin("/y");
    stop_everywhere(resolve, rename_away, judge_resolved);
    end("a path that never was, by one call", 0);
    begin(path);
    stop_everywhere(count, try_all, judge_held);
    end("a held lock", 1);
    printf("a call stopped at each of its instructions: no answer is otherwise than it should be\n");
    return 0;
}

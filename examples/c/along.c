/* Looks paths up along their trails, with good and bad arguments, by one thread, and compares what gb_look_along, its form
 * that never waits and gb_look_fast_along answer. The trails were worked out by hand.
 *
 * Prints each answer that is not as it should be, and last how many were. Ends with 1 if there was one.
 */
#include <errno.h>
#include <gigbewu.h>
#include <stdio.h>
#include <string.h>

enum { INODES = 4096, MOST = 4, ROOM = 8, MARK = 77, NOBODY = 99, LONGEST_NAME = 255, NAMES = 2048, CHANGES = 7 };

/* The three calls. The first two fill rows, by which the third answers. */
enum call { TRIES, WAITS, BY_ROWS, CALLS };

static struct gb_gate gate;
static struct gb_pass pass;
static struct gb_found found;
static struct gb_gone gone;
static int wrong;

/* `what` says which answer, `detail` of what. */
static void is(const char *what, const char *detail, int64_t got, int64_t want)
{
    if (got == want)
        return;
    wrong++;
    printf("%s %s: %lld, not %lld\n", what, detail, (long long)got, (long long)want);
}

/* Directories 2 and 3, a file in the second one, and links: beside it, from the root, to nowhere, to itself. */
static void make_all(void)
{
    is("mkdir", "2", gb_mkdir(&gate, &pass, GB_ROOT, "/a", 2, &found), 0);
    is("mkdir", "3", gb_mkdir(&gate, &pass, GB_ROOT, "/a/b", 4, &found), 0);
    is("create", "4", gb_create(&gate, &pass, GB_ROOT, "/a/b/c", 6, &found), 0);
    is("symlink", "5", gb_symlink(&gate, &pass, GB_ROOT, "b", 1, "/a/r", 4, &found), 0);
    is("symlink", "6", gb_symlink(&gate, &pass, GB_ROOT, "/a", 2, "/l", 2, &found), 0);
    is("symlink", "7", gb_symlink(&gate, &pass, GB_ROOT, "no/x", 4, "/a/n", 4, &found), 0);
    is("symlink", "8", gb_symlink(&gate, &pass, GB_ROOT, "/o", 2, "/o", 2, &found), 0);
}

static const struct row {
    const char *path;
    uint64_t base;
    uint32_t follow;
    int answer;
    uint64_t number;
    uint32_t kind;
    size_t count;
    uint64_t trail[MOST];
} rows[] = {
    {"/", GB_ROOT, GB_FOLLOW, 0, 1, GB_DIR, 0, {0}},
    {"/..", GB_ROOT, GB_FOLLOW, 0, 1, GB_DIR, 0, {0}},
    {"/a", GB_ROOT, GB_FOLLOW, 0, 2, GB_DIR, 1, {1}},
    {"/a/.", GB_ROOT, GB_FOLLOW, 0, 2, GB_DIR, 1, {1}},
    {"/a/b/c", GB_ROOT, GB_FOLLOW, 0, 4, GB_FILE, 3, {1, 2, 3}},
    {"/a/../a/b", GB_ROOT, GB_FOLLOW, 0, 3, GB_DIR, 2, {1, 2}},
    {"//a/./b/../b/", GB_ROOT, GB_FOLLOW, 0, 3, GB_DIR, 3, {1, 2, 3}},
    /* Refused: by a name that is missing, beneath a file, as no directory. */
    {"/x", GB_ROOT, GB_FOLLOW, ENOENT, 0, 0, 1, {1}},
    {"/a/x/c", GB_ROOT, GB_FOLLOW, ENOENT, 0, 0, 2, {1, 2}},
    {"/a/b/c/d", GB_ROOT, GB_FOLLOW, ENOTDIR, 0, 0, 3, {1, 2, 3}},
    {"/a/b/c/", GB_ROOT, GB_FOLLOW, ENOTDIR, 0, 0, 3, {1, 2, 3}},
    {"/a/b/c", GB_ROOT, GB_DIRECTORY, ENOTDIR, 0, 0, 3, {1, 2, 3}},
    /* Through links, and up to one. */
    {"/a/r/c", GB_ROOT, GB_FOLLOW, 0, 4, GB_FILE, 3, {1, 2, 3}},
    {"/a/r", GB_ROOT, GB_FOLLOW, 0, 3, GB_DIR, 2, {1, 2}},
    {"/a/r", GB_ROOT, GB_NO_FOLLOW, 0, 5, GB_LINK, 2, {1, 2}},
    {"/l/b/..", GB_ROOT, GB_FOLLOW, 0, 2, GB_DIR, 3, {1, 2, 3}},
    {"/l", GB_ROOT, GB_DIRECTORY, 0, 2, GB_DIR, 1, {1}},
    {"/a/n", GB_ROOT, GB_FOLLOW, ENOENT, 0, 0, 2, {1, 2}},
    {"/o", GB_ROOT, GB_FOLLOW, ELOOP, 0, 0, 1, {1}},
    /* The base of a relative path comes first, also one that doesn't live; the root's own dot asks nothing. */
    {"c", 3, GB_FOLLOW, 0, 4, GB_FILE, 1, {3}},
    {".", 3, GB_FOLLOW, 0, 3, GB_DIR, 1, {3}},
    {"../b", 3, GB_FOLLOW, 0, 3, GB_DIR, 2, {3, 2}},
    {"../../l/b/c", 3, GB_FOLLOW, 0, 4, GB_FILE, 3, {3, 2, 1}},
    {"/a", 3, GB_FOLLOW, 0, 2, GB_DIR, 1, {1}},
    {"a", GB_ROOT, GB_FOLLOW, 0, 2, GB_DIR, 1, {1}},
    {".", GB_ROOT, GB_FOLLOW, 0, 1, GB_DIR, 0, {0}},
    {"c", 4, GB_FOLLOW, ENOENT, 0, 0, 1, {4}},
    {"c", NOBODY, GB_FOLLOW, ENOENT, 0, 0, 1, {NOBODY}},
    {"/a", NOBODY, GB_FOLLOW, 0, 2, GB_DIR, 1, {1}},
};

static uint64_t trail[ROOM];

static void mark(void)
{
    const struct gb_found marked = {MARK, MARK, MARK, MARK, MARK};
    found = marked;
    for (int i = 0; i < ROOM; i++)
        trail[i] = MARK;
}

static int is_marked(size_t from)
{
    for (size_t i = from; i < ROOM; i++)
        if (trail[i] != MARK)
            return 0;
    return 1;
}

static int ask(enum call call, uint64_t base, const char *path, size_t len, uint32_t follow, size_t places)
{
    mark();
    if (call == BY_ROWS)
        return gb_look_fast_along(&pass, base, path, len, follow, trail, places, &found);
    return call == WAITS ? gb_look_along(&gate, &pass, base, path, len, follow, trail, places, &found)
                         : gb_try_look_along(&pass, base, path, len, follow, trail, places, &found);
}

static void is_found(const char *what, uint64_t number, uint32_t kind, uint64_t count, uint64_t at)
{
    is(what, "number", (int64_t)found.number, (int64_t)number);
    is(what, "kind", found.kind, kind);
    is(what, "count", (int64_t)found.count, (int64_t)count);
    is(what, "at", (int64_t)found.at, (int64_t)at);
    is(what, "why", found.why, GB_WHY_NONE);
}

/* With as many places as it needs, with more, and with one less. */
static void try_row(const struct row *row)
{
    for (enum call call = TRIES; call < CALLS; call++) {
        size_t len = strlen(row->path), places = call == WAITS ? ROOM : row->count;
        is(row->path, "answer", ask(call, row->base, row->path, len, row->follow, places), row->answer);
        is_found(row->path, row->number, row->kind, row->count, CHANGES);
        is(row->path, "trail", memcmp(trail, row->trail, row->count * sizeof *trail), 0);
        is(row->path, "behind the trail", is_marked(row->count), 1);
        if (row->count == 0)
            continue;
        is(row->path, "a place less", ask(call, row->base, row->path, len, row->follow, row->count - 1), GB_NO_ROOM);
        is_found(row->path, 0, 0, 0, 0);
        is(row->path, "a place less, behind them", is_marked(row->count - 1), 1);
    }
}

/* The rows of a path answer once gb_look_along, or the form that never waits, has filled them. */
static void fill_rows(enum call filling, const struct row *row)
{
    size_t len = strlen(row->path);
    uint64_t emptied;
    is("shrink", "all", gb_shrink(&gate, &pass, UINT64_MAX, &emptied), 0);
    is(row->path, "no row", ask(BY_ROWS, row->base, row->path, len, row->follow, ROOM), GB_AGAIN);
    is(row->path, "no row: why", found.why, GB_WHY_MISS);
    is(row->path, "no row: the rest", (int64_t)(found.number + found.count + found.at + found.kind), 0);
    is(row->path, "filling", ask(filling, row->base, row->path, len, row->follow, ROOM), row->answer);
    is(row->path, "by rows", ask(BY_ROWS, row->base, row->path, len, row->follow, ROOM), row->answer);
    is_found(row->path, row->number, row->kind, row->count, CHANGES);
    is(row->path, "trail by rows", memcmp(trail, row->trail, row->count * sizeof *trail), 0);
}

/* They ask in no directory, so they need no place. */
static void try_texts(void)
{
    static char longest[GB_PATH_MOST + 1], name[LONGEST_NAME + 1];
    memset(longest, '/', sizeof longest);
    memset(name, 'n', sizeof name);
    for (enum call call = TRIES; call < CALLS; call++) {
        is("no bytes", "answer", ask(call, 3, "", 0, GB_FOLLOW, 0), ENOENT);
        is_found("no bytes", 0, 0, 0, CHANGES);
        is("a zero byte", "answer", ask(call, 3, "c\0", 2, GB_FOLLOW, ROOM), EINVAL);
        is_found("a zero byte", 0, 0, 0, CHANGES);
        is("a zero byte", "writes no trail", is_marked(0), 1);
        is("4,096 bytes", "answer", ask(call, 3, longest, sizeof longest, GB_FOLLOW, ROOM), ENAMETOOLONG);
        is("a name of 256", "answer", ask(call, 3, name, sizeof name, GB_FOLLOW, ROOM), ENAMETOOLONG);
        is_found("a name of 256", 0, 0, 0, CHANGES);
        is("a name of 256", "writes no trail", is_marked(0), 1);
        is("a name of 255", "answer", ask(call, 3, name, LONGEST_NAME, GB_FOLLOW, ROOM), ENOENT);
        is_found("a name of 255", 0, 0, 1, CHANGES);
    }
}

/* They leave all as it was. */
static void is_bad(const char *what, int answer, int want)
{
    struct gb_found was = found;
    int same = is_marked(0);
    mark();
    is(what, "answer", answer, want);
    is(what, "writes nothing", same && memcmp(&was, &found, sizeof was) == 0, 1);
}

static void try_bad_arguments(void)
{
    struct gb_pass blank = {0};
    is_bad("a wrong follow", ask(TRIES, GB_ROOT, "/a", 2, 3, ROOM), GB_BAD_ARGUMENT);
    is_bad("a wrong follow", ask(WAITS, GB_ROOT, "/a", 2, UINT32_MAX, ROOM), GB_BAD_ARGUMENT);
    is_bad("a wrong follow", ask(BY_ROWS, GB_ROOT, "/a", 2, 3, ROOM), GB_BAD_ARGUMENT);
    is_bad("a blank pass", gb_try_look_along(&blank, GB_ROOT, "/a", 2, GB_FOLLOW, trail, ROOM, &found), GB_BAD_PASS);
    is_bad("a blank pass", gb_look_fast_along(&blank, GB_ROOT, "/a", 2, GB_FOLLOW, trail, ROOM, &found), GB_BAD_PASS);
    is_bad("a blank pass", gb_look_along(&gate, &blank, GB_ROOT, "", 0, GB_FOLLOW, trail, ROOM, &found), GB_BAD_PASS);
}

/* What a caller makes of it that lets nobody search one directory. */
static int may_look(const char *path, uint64_t forbidden)
{
    int answer = ask(WAITS, GB_ROOT, path, strlen(path), GB_FOLLOW, ROOM);
    for (uint64_t i = 0; i < found.count && i < ROOM; i++)
        if (trail[i] == forbidden)
            return EACCES;
    return answer;
}

static void try_permissions(void)
{
    is("forbidden 2", "a name in it", may_look("/a/b", 2), EACCES);
    is("forbidden 2", "itself", may_look("/a", 2), 0);
    is("forbidden 2", "a missing name in it", may_look("/a/x", 2), EACCES);
    is("forbidden 2", "beneath a missing name in it", may_look("/a/x/y", 2), EACCES);
    is("forbidden 2", "its dot-dot", may_look("/a/../x", 2), EACCES);
    is("forbidden 2", "a link to it", may_look("/l", 2), 0);
    is("forbidden 2", "a link's name in it", may_look("/l/x", 2), EACCES);
    is("forbidden 3", "behind a missing name", may_look("/a/x/b/c", 3), ENOENT);
    is("forbidden 1", "each path from the root", may_look("/x", 1), EACCES);
}

/* A path with 2,048 names, each in a directory of its own; then the last of these is gone. */
static void try_longest(void)
{
    static char path[GB_PATH_MOST];
    static uint64_t numbers[NAMES], told[NAMES];
    memset(path, '/', sizeof path);
    numbers[0] = GB_ROOT;
    for (int i = 0; i < NAMES; i++) {
        path[2 * i] = 'x';
        if (i == 0)
            continue;
        is("mkdir", "x", gb_mkdir(&gate, &pass, numbers[i - 1], "x", 1, &found), 0);
        numbers[i] = found.number;
    }
    is("2,048 names", "answer",
       gb_try_look_along(&pass, GB_ROOT, path, sizeof path, GB_FOLLOW, told, NAMES, &found), ENOENT);
    is("2,048 names", "count", (int64_t)found.count, NAMES);
    is("2,048 names", "trail", memcmp(told, numbers, sizeof told), 0);
    is("2,048 names", "by rows",
       gb_look_fast_along(&pass, GB_ROOT, path, sizeof path, GB_FOLLOW, told, NAMES, &found), GB_AGAIN);
    is("2,048 names", "a place less",
       gb_try_look_along(&pass, GB_ROOT, path, sizeof path, GB_FOLLOW, told, NAMES - 1, &found), GB_NO_ROOM);
    is("rmdir", "x", gb_rmdir(&gate, &pass, numbers[NAMES - 2], "x", 1, &found, &gone), 0);
    is("2,047 names", "answer",
       gb_look_along(&gate, &pass, GB_ROOT, path, sizeof path, GB_FOLLOW, told, NAMES - 1, &found), ENOENT);
    is("2,047 names", "count", (int64_t)found.count, NAMES - 1);
    is("a base that is gone", "answer", ask(WAITS, numbers[NAMES - 1], "..", 2, GB_FOLLOW, 1), ENOENT);
    is("a base that is gone", "trail", (int64_t)trail[0], (int64_t)numbers[NAMES - 1]);
}

int main(void)
{
    gate = gb_gate_new();
    is("cache_new", "", gb_cache_new(64, INODES, &pass), 0);
    make_all();
    for (size_t i = 0; i < sizeof rows / sizeof *rows; i++)
        try_row(&rows[i]);
    for (size_t i = 0; i < sizeof rows / sizeof *rows; i++)
        if (rows[i].count != 0) {
            fill_rows(TRIES, &rows[i]);
            fill_rows(WAITS, &rows[i]);
        }
    try_texts();
    try_bad_arguments();
    try_permissions();
    try_longest();
    is("close", "", gb_close(&pass), 0);
    printf("%d answers of gb_look_along are not as they should be\n", wrong);
    return wrong != 0;
}

/* Calls each blocking form of the header with good and bad arguments, by one thread, and looks at all that it writes:
 * what it should, or nothing. Prints each answer that is not as it should be, and last how many were. How a form waits is
 * seen by busy.c, waits.c and gate.c.
 */
#include <errno.h>
#include <gigbewu.h>
#include <stdio.h>
#include <string.h>

enum { BUCKETS = 256, INODES = 8, ROOM = 8, MARK = 77, LONGEST_NAME = 255, NOBODY = 99 };

static struct gb_gate gate;
static struct gb_pass pass, blank;
static struct gb_found found;
static struct gb_gone gone;
static char bytes[ROOM];
static uint64_t trail[ROOM], emptied, base = GB_ROOT;
static int wrong;

static void is(const char *what, const char *detail, int64_t got, int64_t want)
{
    if (got == want)
        return;
    wrong++;
    printf("%s %s: %lld, not %lld\n", what, detail, (long long)got, (long long)want);
}

/* Each form on a path, which is the second one if it has two. */
static int look(struct gb_pass *with, const char *path, size_t len)
{
    return gb_look(&gate, with, base, path, len, GB_FOLLOW, &found);
}

static int look_missed(struct gb_pass *with, const char *path, size_t len)
{
    return gb_look_missed(&gate, with, base, path, len, GB_FOLLOW, &found);
}

static int resolve(struct gb_pass *with, const char *path, size_t len)
{
    return gb_resolve(&gate, with, base, path, len, GB_FOLLOW, &found);
}

static struct gb_looks looks;

static int look_counting(struct gb_pass *with, const char *path, size_t len)
{
    return gb_look_counting(&gate, with, base, path, len, GB_FOLLOW, &found, &looks);
}

static int look_along(struct gb_pass *with, const char *path, size_t len)
{
    return gb_look_along(&gate, with, base, path, len, GB_FOLLOW, trail, ROOM, &found);
}

static int count(struct gb_pass *with, const char *path, size_t len)
{
    return gb_stat(&gate, with, base, path, len, &found);
}

static int read_link(struct gb_pass *with, const char *path, size_t len)
{
    return gb_readlink(&gate, with, base, path, len, bytes, ROOM, &found);
}

static int list(struct gb_pass *with, const char *path, size_t len)
{
    return gb_list(&gate, with, base, path, len, bytes, ROOM, &found);
}

static int make_directory(struct gb_pass *with, const char *path, size_t len)
{
    return gb_mkdir(&gate, with, base, path, len, &found);
}

static int create(struct gb_pass *with, const char *path, size_t len)
{
    return gb_create(&gate, with, base, path, len, &found);
}

static int make_link(struct gb_pass *with, const char *path, size_t len)
{
    return gb_symlink(&gate, with, base, "d/f", 3, path, len, &found);
}

static int give_name(struct gb_pass *with, const char *path, size_t len)
{
    return gb_link(&gate, with, base, "/d/f", 4, path, len, &found);
}

static int take_name(struct gb_pass *with, const char *path, size_t len)
{
    return gb_unlink(&gate, with, base, path, len, &found, &gone);
}

static int take_directory(struct gb_pass *with, const char *path, size_t len)
{
    return gb_rmdir(&gate, with, base, path, len, &found, &gone);
}

static int move(struct gb_pass *with, const char *path, size_t len)
{
    return gb_rename(&gate, with, base, "/h", 2, path, len, 0, &found, &gone);
}

static int shrink(struct gb_pass *with, const char *path, size_t len)
{
    (void)path;
    return gb_shrink(&gate, with, len, &emptied);
}

/* In this order, each by its good path. */
static const struct {
    const char *name;
    int (*call)(struct gb_pass *with, const char *path, size_t len);
    const char *good;
    uint64_t number;
} forms[] = {
    {"mkdir", make_directory, "/d", 2}, {"create", create, "/d/f", 3},      {"symlink", make_link, "/l", 4},
    {"link", give_name, "/h", 3},       {"look", look, "/l", 3},            {"look_missed", look_missed, "/d", 2},
    {"look_counting", look_counting, "/l", 3}, {"resolve", resolve, "/l", 3},
    {"look_along", look_along, "/l", 3},
    {"stat", count, "/h", 3},           {"readlink", read_link, "/l", 0},   {"list", list, "/d", 0},
    {"shrink", shrink, "x", MARK},      {"rename", move, "/d/f", 0},        {"rename", move, "/m", 0},
    {"unlink", take_name, "/l", 0},     {"unlink", take_name, "/d/f", 0},   {"rmdir", take_directory, "/d", 0},
};

enum { FORMS = sizeof forms / sizeof *forms };

static void mark(void)
{
    struct gb_found marked = {MARK, MARK, MARK, MARK, MARK};
    struct gb_gone marked_gone = {MARK, MARK, MARK};
    found = marked;
    gone = marked_gone;
    emptied = MARK;
    memset(bytes, '#', sizeof bytes);
    for (int i = 0; i < ROOM; i++)
        trail[i] = MARK;
}

static int is_marked(const char *what, const char *detail)
{
    struct gb_found was = found;
    struct gb_gone was_gone = gone;
    uint64_t was_emptied = emptied;
    char were[ROOM];
    uint64_t was_trail[ROOM];
    memcpy(were, bytes, sizeof were);
    memcpy(was_trail, trail, sizeof was_trail);
    mark();
    int same = memcmp(&was, &found, sizeof was) == 0 && memcmp(&was_gone, &gone, sizeof was_gone) == 0 &&
               memcmp(was_trail, trail, sizeof was_trail) == 0;
    is(what, detail, same && was_emptied == emptied && memcmp(were, bytes, sizeof were) == 0, 1);
    return same;
}

/* A blank pass leaves all as it was; what a refusal has no answer for is 0, and its bytes stay as they were. */
static void try_bad(int i)
{
    const char *name = forms[i].name;
    char longest[LONGEST_NAME + 1];
    mark();
    is(name, "a blank pass", forms[i].call(&blank, forms[i].good, strlen(forms[i].good)), GB_BAD_PASS);
    is_marked(name, "a blank pass writes nothing");
    if (forms[i].call == shrink)
        return;
    is(name, "a zero byte", forms[i].call(&pass, "/\0", 2), EINVAL);
    is(name, "a zero byte: number", (int64_t)found.number, 0);
    is(name, "a zero byte: why", found.why, GB_WHY_NONE);
    is(name, "a zero byte: bytes", memcmp(bytes, "########", ROOM), 0);
    is(name, "a zero byte: trail", (int64_t)trail[0], MARK);
    if (gone.number != MARK)
        is(name, "a zero byte: gone", (int64_t)(gone.number + gone.kind + gone.last), 0);
    is(name, "beneath a missing name", forms[i].call(&pass, "/no/x", 5), ENOENT);
    is(name, "no bytes", forms[i].call(&pass, "", 0), ENOENT);
    memset(longest, 'n', sizeof longest);
    is(name, "a name of 256", forms[i].call(&pass, longest, sizeof longest), ENAMETOOLONG);
    base = NOBODY;
    is(name, "from no directory", forms[i].call(&pass, "x", 1), ENOENT);
    base = GB_ROOT;
}

/* The same pass, once it is closed. */
static void try_closed(int i)
{
    mark();
    is(forms[i].name, "a closed pass", forms[i].call(&pass, forms[i].good, strlen(forms[i].good)), GB_BAD_PASS);
    is_marked(forms[i].name, "a closed pass writes nothing");
}

static void try_good(int i)
{
    mark();
    is(forms[i].name, forms[i].good, forms[i].call(&pass, forms[i].good, strlen(forms[i].good)), 0);
    is(forms[i].name, "number", (int64_t)found.number, (int64_t)forms[i].number);
    if (forms[i].call == read_link)
        is("readlink", "text", memcmp(bytes, "d/f#####", ROOM), 0);
    if (forms[i].call == look_along)
        is("look_along", "trail", trail[0] == GB_ROOT && trail[1] == 2 && trail[2] == MARK && found.count == 2, 1);
    if (forms[i].call == list)
        is("list", "names", memcmp(bytes, "f\0######", ROOM), 0);
    if (forms[i].call == shrink)
        is("shrink", "one row", (int64_t)emptied, 1);
}

static void try_arguments(void)
{
    mark();
    is("look", "a wrong follow", gb_look(&gate, &pass, GB_ROOT, "/", 1, 3, &found), GB_BAD_ARGUMENT);
    is("look_missed", "a wrong follow", gb_look_missed(&gate, &pass, GB_ROOT, "/", 1, 3, &found), GB_BAD_ARGUMENT);
    is("resolve", "a wrong follow", gb_resolve(&gate, &pass, GB_ROOT, "/", 1, 3, &found), GB_BAD_ARGUMENT);
    is("look_along", "a wrong follow", gb_look_along(&gate, &pass, GB_ROOT, "/", 1, 3, trail, ROOM, &found),
       GB_BAD_ARGUMENT);
    is("rename", "a wrong flag", gb_rename(&gate, &pass, GB_ROOT, "/", 1, "/", 1, 4, &found, &gone), GB_BAD_ARGUMENT);
    is_marked("a wrong argument", "writes nothing");
    is("readlink", "of a file", read_link(&pass, "/m", 2), EINVAL);
    is("shrink", "no row", gb_shrink(&gate, &pass, 0, &emptied), 0);
    is("shrink", "no row: emptied", (int64_t)emptied, 0);
}

/* The first look-up of a name fills its row, which answers the others. */
static void try_looks(void)
{
    struct gb_looks told = {0, 0};
    for (int i = 0; i < 3; i++)
        is("look_counting", "a missing name",
           gb_look_counting(&gate, &pass, GB_ROOT, "/new", 4, GB_FOLLOW, &found, &told), ENOENT);
    is("look_counting", "a wrong follow", gb_look_counting(&gate, &pass, GB_ROOT, "/", 1, 3, &found, &told),
       GB_BAD_ARGUMENT);
    is("look_counting", "a blank pass", gb_look_counting(&gate, &blank, GB_ROOT, "/", 1, GB_FOLLOW, &found, &told),
       GB_BAD_PASS);
    is("looks", "under the lock", (int64_t)told.under_lock, 1);
    is("looks", "by the rows", (int64_t)told.by_rows, 2);
}

int main(void)
{
    gate = gb_gate_new();
    is("cache_new", "", gb_cache_new(BUCKETS, INODES, &pass), 0);
    for (int i = 0; i < FORMS; i++) {
        try_good(i);
        try_bad(i);
    }
    try_arguments();
    try_looks();
    is("sleepers", "at the end", gate.sleepers, 0);
    is("close", "", gb_close(&pass), 0);
    for (int i = 0; i < FORMS; i++)
        try_closed(i);
    printf("%d answers of blocking forms are not as they should be\n", wrong);
    return wrong != 0;
}

/* Calls each function of the header with good and bad arguments, by one thread, and compares what it answers.
 *
 * Prints each answer that is not as it should be, and last how many were. Ends with 1 if there was one.
 */
#include <errno.h>
#include <gigbewu.h>
#include <stdio.h>
#include <string.h>

enum { ROOT = 1, INODES = 8, LONGEST_NAME = 255, LONGEST_PATH = 4095, MOST_NOTED = 256 };

static struct gb_pass pass, blank;
static struct gb_found found;
static struct gb_gone gone;
static int wrong;

/* `what` says which answer, `detail` of what. */
static void is(const char *what, const char *detail, int64_t got, int64_t want)
{
    if (got == want)
        return;
    wrong++;
    printf("%s %s: %lld, not %lld\n", what, detail, (long long)got, (long long)want);
}

/* Each call on one path, as all are tried with the same bad texts and passes. */
static int look_fast(struct gb_pass *with, const char *path, size_t len)
{
    return gb_look_fast(with, ROOT, path, len, GB_FOLLOW, &found);
}

static int look(struct gb_pass *with, const char *path, size_t len)
{
    return gb_try_look(with, ROOT, path, len, GB_FOLLOW, &found);
}

static int resolve(struct gb_pass *with, const char *path, size_t len)
{
    return gb_try_resolve(with, ROOT, path, len, GB_FOLLOW, &found);
}

static int look_along(struct gb_pass *with, const char *path, size_t len)
{
    uint64_t trail[1];
    return gb_try_look_along(with, ROOT, path, len, GB_FOLLOW, trail, 1, &found);
}

static int look_fast_along(struct gb_pass *with, const char *path, size_t len)
{
    uint64_t trail[1];
    return gb_look_fast_along(with, ROOT, path, len, GB_FOLLOW, trail, 1, &found);
}

static int stat(struct gb_pass *with, const char *path, size_t len)
{
    return gb_try_stat(with, ROOT, path, len, &found);
}

static int readlink(struct gb_pass *with, const char *path, size_t len)
{
    char text[1];
    return gb_try_readlink(with, ROOT, path, len, text, 0, &found);
}

static int list(struct gb_pass *with, const char *path, size_t len)
{
    char names[1];
    return gb_try_list(with, ROOT, path, len, names, 0, &found);
}

static int mkdir(struct gb_pass *with, const char *path, size_t len)
{
    return gb_try_mkdir(with, ROOT, path, len, &found);
}

static int create(struct gb_pass *with, const char *path, size_t len)
{
    return gb_try_create(with, ROOT, path, len, &found);
}

static int symlink_to(struct gb_pass *with, const char *text, size_t len)
{
    return gb_try_symlink(with, ROOT, text, len, "/made", 5, &found);
}

static int symlink_at(struct gb_pass *with, const char *path, size_t len)
{
    return gb_try_symlink(with, ROOT, "text", 4, path, len, &found);
}

static int link_old(struct gb_pass *with, const char *path, size_t len)
{
    return gb_try_link(with, ROOT, path, len, "/made", 5, &found);
}

static int link_new(struct gb_pass *with, const char *path, size_t len)
{
    return gb_try_link(with, ROOT, "/f", 2, path, len, &found);
}

static int unlink(struct gb_pass *with, const char *path, size_t len)
{
    return gb_try_unlink(with, ROOT, path, len, &found, &gone);
}

static int rmdir(struct gb_pass *with, const char *path, size_t len)
{
    return gb_try_rmdir(with, ROOT, path, len, &found, &gone);
}

static int rename_old(struct gb_pass *with, const char *path, size_t len)
{
    return gb_try_rename(with, ROOT, path, len, "/made", 5, 0, &found, &gone);
}

static int rename_new(struct gb_pass *with, const char *path, size_t len)
{
    return gb_try_rename(with, ROOT, "/f", 2, path, len, 0, &found, &gone);
}

static const struct {
    const char *name;
    int (*call)(struct gb_pass *with, const char *path, size_t len);
} calls[] = {
    {"look_fast", look_fast},   {"look", look},           {"resolve", resolve},   {"stat", stat},
    {"look_along", look_along}, {"look_fast_along", look_fast_along}, {"readlink", readlink},
    {"list", list},             {"mkdir", mkdir},         {"create", create},     {"symlink to", symlink_to},
    {"symlink at", symlink_at}, {"link old", link_old},   {"link new", link_new}, {"unlink", unlink},
    {"rmdir", rmdir},           {"rename old", rename_old}, {"rename new", rename_new},
};

enum { CALLS = sizeof calls / sizeof *calls };

static void try_texts(void)
{
    static char longest[LONGEST_PATH + 1], name[LONGEST_NAME + 1];
    memset(longest, '/', sizeof longest);
    memset(name, 'n', sizeof name);
    for (int i = 0; i < CALLS; i++) {
        is(calls[i].name, "no bytes", calls[i].call(&pass, "", 0), ENOENT);
        is(calls[i].name, "a zero byte", calls[i].call(&pass, "f\0", 2), EINVAL);
        is(calls[i].name, "4,096 bytes", calls[i].call(&pass, longest, sizeof longest), ENAMETOOLONG);
        is(calls[i].name, "a name of 256", calls[i].call(&pass, name, sizeof name), ENAMETOOLONG);
        int answer = calls[i].call(&pass, "/f/x", 4);
        if (answer == GB_AGAIN && (calls[i].call == look_fast || calls[i].call == look_fast_along))
            continue;
        is(calls[i].name, "beneath a file", answer, calls[i].call == symlink_to ? 0 : ENOTDIR);
        if (calls[i].call == symlink_to)
            is("unlink", "what it made", unlink(&pass, "/made", 5), 0);
    }
    is("look", "4,095 slashes", look(&pass, longest, LONGEST_PATH), 0);
    is("look", "a name of 255", look(&pass, name, LONGEST_NAME), ENOENT);
}

/* One that was never opened, or has ended. */
static void try_blank(const char *which)
{
    struct gb_pass other = {0};
    uint64_t number;
    for (int i = 0; i < CALLS; i++)
        is(calls[i].name, which, calls[i].call(&blank, "/f", 2), GB_BAD_PASS);
    is("learn", which, gb_learn(&blank, 0, &number), GB_BAD_PASS);
    is("shrink", which, gb_try_shrink(&blank, 1, &number), GB_BAD_PASS);
    is("close", which, gb_close(&blank), GB_BAD_PASS);
    is("split", which, gb_pass_split(&blank, &other), GB_BAD_PASS);
    is("join", which, gb_pass_join(&blank, &pass), GB_BAD_PASS);
    is("join", which, gb_pass_join(&pass, &blank), GB_BAD_PASS);
    is("a blank pass", "stays blank", blank.at != NULL, 0);
}

static void try_sizes(void)
{
    static const struct {
        uint64_t buckets, inodes;
    } sizes[] = {{0, 1}, {3, 1}, {1025, 1}, {8388608, 1}, {UINT64_MAX, 1}, {1, 0}, {1, 4294967297}, {1, UINT64_MAX}};
    for (size_t i = 0; i < sizeof sizes / sizeof *sizes; i++)
        is("cache_new", "of a wrong size", gb_cache_new(sizes[i].buckets, sizes[i].inodes, &pass), GB_BAD_SIZE);
    is("cache_new", "of a large size", gb_cache_new(4096, 4294967296, &pass), 0);
    is("cache_new", "into an open pass", gb_cache_new(1, 1, &pass), GB_BAD_PASS);
    is("close", "the large one", gb_close(&pass), 0);
    is("cache_new", "of the least size", gb_cache_new(1, 1, &pass), 0);
    is("create", "beyond the limit", create(&pass, "/f", 2), ENOSPC);
    is("close", "the least", gb_close(&pass), 0);
}

/* At most two names: a third finds no memory, until one is gone. A rename over a name leaves one fewer. */
static void try_names(void)
{
    struct gb_gone gone;
    is("cache_with_names", "of a wrong size", gb_cache_with_names(3, 1, 1, &pass), GB_BAD_SIZE);
    is("cache_with_names", "", gb_cache_with_names(1, 8, 2, &pass), 0);
    is("cache_with_names", "into an open pass", gb_cache_with_names(1, 1, 1, &pass), GB_BAD_PASS);
    is("create", "the first name", create(&pass, "/a", 2), 0);
    is("link", "the second name", gb_try_link(&pass, ROOT, "/a", 2, "/b", 2, &found), 0);
    is("link", "past the limit", gb_try_link(&pass, ROOT, "/a", 2, "/c", 2, &found), GB_NO_MEMORY);
    is("mkdir", "past the limit", mkdir(&pass, "/d", 2), GB_NO_MEMORY);
    is("mkdir", "there", mkdir(&pass, "/a", 2), EEXIST);
    is("rename", "at the limit", gb_try_rename(&pass, ROOT, "/b", 2, "/c", 2, 0, &found, &gone), 0);
    is("unlink", "", gb_try_unlink(&pass, ROOT, "/c", 2, &found, &gone), 0);
    is("create", "a second name again", create(&pass, "/d", 2), 0);
    is("rename", "over a name", gb_try_rename(&pass, ROOT, "/a", 2, "/d", 2, 0, &found, &gone), 0);
    is("mkdir", "a second name once more", mkdir(&pass, "/e", 2), 0);
    is("mkdir", "past the limit again", mkdir(&pass, "/f", 2), GB_NO_MEMORY);
    is("rmdir", "", gb_try_rmdir(&pass, ROOT, "/e", 2, &found, &gone), 0);
    is("mkdir", "a second name at last", mkdir(&pass, "/f", 2), 0);
    is("close", "", gb_close(&pass), 0);
}

static void is_found(const char *what, int answer, uint64_t number, uint32_t kind, uint64_t at)
{
    is(what, "answer", answer, 0);
    is(what, "number", (int64_t)found.number, (int64_t)number);
    is(what, "kind", found.kind, kind);
    is(what, "at", (int64_t)found.at, (int64_t)at);
    is(what, "why", found.why, GB_WHY_NONE);
}

static void is_made(const char *what, int answer, uint64_t number, uint64_t at)
{
    is(what, "answer", answer, 0);
    is(what, "number", (int64_t)found.number, (int64_t)number);
    is(what, "at", (int64_t)found.at, (int64_t)at);
}

/* Numbers rise from 1, the root's; the first change is at 0. */
static void make_all(void)
{
    is("cache_new", "", gb_cache_new(256, INODES, &pass), 0);
    is_made("mkdir", mkdir(&pass, "/d", 2), 2, 0);
    is_made("create", create(&pass, "/f", 2), 3, 1);
    is_made("symlink", gb_try_symlink(&pass, ROOT, "d/g", 3, "/l", 2, &found), 4, 2);
    is_made("link", gb_try_link(&pass, ROOT, "/f", 2, "d/g", 3, &found), 3, 3);
    is("mkdir", "there", mkdir(&pass, "/d", 2), EEXIST);
    is("mkdir", "at of a refusal", (int64_t)found.at, 4);
    is("create", "there", create(&pass, "/l", 2), EEXIST);
    is("create", "in a missing directory", create(&pass, "/no/f", 5), ENOENT);
    is("link", "of a directory", link_old(&pass, "/d", 2), EPERM);
}

static void look_all(void)
{
    is_found("look", look(&pass, "/d", 2), 2, GB_DIR, 4);
    is_found("look", gb_try_look(&pass, 2, "g", 1, GB_FOLLOW, &found), 3, GB_FILE, 4);
    is_found("look", gb_try_look(&pass, 2, "..", 2, GB_DIRECTORY, &found), ROOT, GB_DIR, 4);
    is_found("look", look(&pass, "/l", 2), 3, GB_FILE, 4);
    is_found("look", gb_try_look(&pass, ROOT, "/l", 2, GB_NO_FOLLOW, &found), 4, GB_LINK, 4);
    is("look", "a file as a directory", gb_try_look(&pass, ROOT, "/l", 2, GB_DIRECTORY, &found), ENOTDIR);
    is("look", "from no directory", gb_try_look(&pass, 3, "g", 1, GB_FOLLOW, &found), ENOENT);
    is("look", "from no inode", gb_try_look(&pass, 99, "g", 1, GB_FOLLOW, &found), ENOENT);
    is("look", "a wrong follow", gb_try_look(&pass, ROOT, "/d", 2, 3, &found), GB_BAD_ARGUMENT);
    is_found("resolve", resolve(&pass, "/d/../f", 7), 3, GB_FILE, 4);
    is_found("resolve", gb_try_resolve(&pass, 2, "g", 1, GB_NO_FOLLOW, &found), 3, GB_FILE, 4);
    is_found("resolve", gb_try_resolve(&pass, ROOT, "/l", 2, GB_NO_FOLLOW, &found), 4, GB_LINK, 4);
    is("resolve", "a file as a directory", gb_try_resolve(&pass, ROOT, "/l", 2, GB_DIRECTORY, &found), ENOTDIR);
    is("resolve", "from no inode", gb_try_resolve(&pass, 99, "g", 1, GB_FOLLOW, &found), ENOENT);
    is("resolve", "a wrong follow", gb_try_resolve(&pass, ROOT, "/d", 2, 3, &found), GB_BAD_ARGUMENT);
    is("look_fast", "a wrong follow", gb_look_fast(&pass, ROOT, "/d", 2, UINT32_MAX, &found), GB_BAD_ARGUMENT);
}

/* Answers of the rows, which the look-ups before have filled, also of the longest name. */
static void look_by_rows(void)
{
    static char name[LONGEST_NAME];
    int answer;
    memset(name, 'n', sizeof name);
    for (int i = 0; i < 2 && (answer = look_fast(&pass, "/d", 2)) == GB_AGAIN; i++)
        is("look", "/d", look(&pass, "/d", 2), 0);
    is_found("look_fast", answer, 2, GB_DIR, 4);
    is("look_fast", "the longest name", look_fast(&pass, name, sizeof name), GB_AGAIN);
    is("look_fast", "why", found.why, GB_WHY_MISS);
    is("look", "the longest name", look(&pass, name, sizeof name), ENOENT);
    is("look_fast", "the longest name in a row", look_fast(&pass, name, sizeof name), ENOENT);
    is("look_fast", "a name beside it", look_fast(&pass, name, sizeof name - 1), GB_AGAIN);
    is("resolve", "a name beside it", resolve(&pass, name, sizeof name - 1), ENOENT);
    is("look_fast", "a name beside it, in a row", look_fast(&pass, name, sizeof name - 1), ENOENT);
}

/* A path of as many names as a walk can note, and one of a name more. */
static void try_a_deep_path(void)
{
    static char path[2 * (MOST_NOTED + 1)];
    is("cache_new", "of a deep path", gb_cache_new(1024, MOST_NOTED + 2, &pass), 0);
    for (size_t length = 2; length <= sizeof path; length += 2) {
        memcpy(path + length - 2, "/a", 2);
        is("mkdir", "a deep path", mkdir(&pass, path, length), 0);
    }
    is("look", "a deeper path", look(&pass, path, sizeof path), 0);
    is("resolve", "a deeper path", resolve(&pass, path, sizeof path), 0);
    is("look_fast", "a deeper path", look_fast(&pass, path, sizeof path), GB_AGAIN);
    is("look_fast", "why", found.why, GB_WHY_LONG);
    is("look", "a deep path", look(&pass, path, sizeof path - 2), 0);
    is("look_fast", "a deep path", look_fast(&pass, path, sizeof path - 2), 0);
    is("close", "of a deep path", gb_close(&pass), 0);
}

static void read_all(void)
{
    char text[4] = "####", names[8] = "########";
    is_found("stat", stat(&pass, "/l", 2), 3, GB_FILE, 4);
    is("stat", "names", (int64_t)found.count, 2);
    is_found("stat", stat(&pass, "/", 1), ROOT, GB_DIR, 4);
    is("stat", "entries", (int64_t)found.count, 3);
    is("readlink", "l", gb_try_readlink(&pass, ROOT, "/l", 2, text, 4, &found), 0);
    is("readlink", "bytes", (int64_t)found.count, 3);
    is("readlink", "text", memcmp(text, "d/g#", 4), 0);
    is("readlink", "f", readlink(&pass, "/f", 2), EINVAL);
    is("list", "d", gb_try_list(&pass, ROOT, "/d", 2, names, 8, &found), 0);
    is("list", "bytes", (int64_t)found.count, 2);
    is("list", "names", memcmp(names, "g\0######", 8), 0);
    is("list", "f", list(&pass, "/f", 2), ENOTDIR);
}

/* What doesn't fit is left out, and the bytes behind the room are left alone. */
static void read_with_little_room(void)
{
    char text[4] = "####", names[8] = "########";
    is("readlink", "of 2 bytes", gb_try_readlink(&pass, ROOT, "/l", 2, text, 2, &found), 0);
    is("readlink", "of 2 bytes: count", (int64_t)found.count, 3);
    is("readlink", "of 2 bytes: text", memcmp(text, "d/##", 4), 0);
    is("readlink", "of 0 bytes", readlink(&pass, "/l", 2), 0);
    is("list", "of 5 bytes", gb_try_list(&pass, ROOT, "/", 1, names, 5, &found), 0);
    is("list", "of 5 bytes: count", (int64_t)found.count, 6);
    is("list", "of 5 bytes: whole names", names[1] == 0 && names[3] == 0 && memcmp(names + 4, "####", 4) == 0, 1);
    is("list", "of 1 byte", gb_try_list(&pass, ROOT, "/d", 2, names + 4, 1, &found), 0);
    is("list", "of 1 byte: count", (int64_t)found.count, 2);
    is("list", "of 1 byte: names", memcmp(names + 4, "####", 4), 0);
    is("list", "of 0 bytes", list(&pass, "/", 1), 0);
}

static int moved(const char *old_path, const char *path, uint32_t flags)
{
    return gb_try_rename(&pass, ROOT, old_path, strlen(old_path), path, strlen(path), flags, &found, &gone);
}

static void is_gone(const char *what, int answer, uint64_t number, uint32_t kind, uint32_t last)
{
    is(what, "answer", answer, 0);
    is(what, "number gone", (int64_t)gone.number, (int64_t)number);
    is(what, "kind gone", gone.kind, kind);
    is(what, "last", gone.last, last);
}

/* There are d (2) with g, f (3) which is d/g too, and l (4). */
static void move_all(void)
{
    is_gone("rename to a new name", moved("/f", "/h", 0), 0, 0, 0);
    is_gone("rename to its other name", moved("/h", "/d/g", 0), 0, 0, 0);
    is_gone("exchange", moved("/h", "/l", GB_EXCHANGE), 0, 0, 0);
    is_gone("exchange back", moved("/h", "/l", GB_EXCHANGE), 0, 0, 0);
    is("rename", "onto what is there, not replacing", moved("/h", "/l", GB_NO_REPLACE), EEXIST);
    is("rename", "both flags", moved("/h", "/l", GB_NO_REPLACE | GB_EXCHANGE), EINVAL);
    is("rename", "a wrong flag", moved("/h", "/l", 4), GB_BAD_ARGUMENT);
    is("rename", "beneath itself", moved("/d", "/d/e", 0), EINVAL);
    is("rename", "a missing name", moved("/no", "/l", 0), ENOENT);
    is("rename", "a file onto a directory", moved("/h", "/d", 0), EISDIR);
    is_gone("rename over a link", moved("/h", "/l", 0), 4, GB_LINK, 1);
    is_gone("rename over one of two names", (create(&pass, "/n", 2), moved("/n", "/l", 0)), 3, GB_FILE, 0);
}

/* There are d (2) with g (3), and l (5). */
static void remove_all(void)
{
    is("rmdir", "not empty", rmdir(&pass, "/d", 2), ENOTEMPTY);
    is("rmdir", "of a file", rmdir(&pass, "/l", 2), ENOTDIR);
    is("unlink", "of a directory", unlink(&pass, "/d", 2), EPERM);
    is("link", "l m", gb_try_link(&pass, ROOT, "/l", 2, "/m", 2, &found), 0);
    is_gone("unlink", unlink(&pass, "/m", 2), 5, GB_FILE, 0);
    is_gone("unlink the last name", unlink(&pass, "/l", 2), 5, GB_FILE, 1);
    is_gone("unlink the last name", unlink(&pass, "d/g", 3), 3, GB_FILE, 1);
    is("unlink", "a missing name", unlink(&pass, "d/g", 3), ENOENT);
    is_gone("rmdir", rmdir(&pass, "/d", 2), 2, GB_DIR, 1);
    is("stat", "the root", stat(&pass, "/", 1), 0);
    is("stat", "no entries", (int64_t)found.count, 0);
}

static void try_loops_and_limits(void)
{
    is("symlink", "to itself", gb_try_symlink(&pass, ROOT, "/s", 2, "/s", 2, &found), 0);
    is("look", "a loop", look(&pass, "/s", 2), ELOOP);
    for (int i = 2; i < INODES; i++)
        is("create", "up to the limit", create(&pass, (const char[]){'a' + (char)i}, 1), 0);
    is("create", "one more", create(&pass, "z", 1), ENOSPC);
}

static void learn_and_shrink(void)
{
    uint64_t clock = 0, emptied = 99;
    is("create", "no inode left", create(&pass, "z", 1), ENOSPC);
    is("learn", "what was", gb_learn(&pass, found.at, &clock), 0);
    is("learn", "clock", (int64_t)clock, (int64_t)found.at);
    is("learn", "what is to come", gb_learn(&pass, found.at + 1, &clock), GB_NOT_YET);
    is("learn", "clock", (int64_t)clock, (int64_t)found.at);
    is("shrink", "none", gb_try_shrink(&pass, 0, &emptied), 0);
    is("shrink", "emptied none", (int64_t)emptied, 0);
    is("shrink", "all", gb_try_shrink(&pass, UINT64_MAX, &emptied), 0);
    is("shrink", "emptied rows", emptied <= 4 * 256, 1);
    is("look", "after a shrink", look(&pass, "/c", 2), 0);
}

static void split_and_join(void)
{
    struct gb_pass other = {0}, third = {0}, foreign = {0};
    is("split", "", gb_pass_split(&pass, &other), 0);
    is("split", "into an open pass", gb_pass_split(&pass, &other), GB_BAD_PASS);
    is("split", "of a half", gb_pass_split(&other, &third), 0);
    is("look", "by another pass", look(&other, "/c", 2), 0);
    is("unlink", "by a third", unlink(&third, "/c", 2), 0);
    is("cache_new", "another cache", gb_cache_new(1, 2, &foreign), 0);
    is("look", "in the other cache", look(&foreign, "/s", 2), ENOENT);
    is("join", "passes of two caches", gb_pass_join(&pass, &foreign), GB_BAD_PASS);
    is("close", "the other cache", gb_close(&foreign), 0);
    is("join", "", gb_pass_join(&pass, &other), 0);
    is("join", "leaves a blank pass", other.at != NULL, 0);
    is("close", "the first of two", gb_close(&pass), 0);
    is("look", "by the last pass", look(&third, "/c", 2), ENOENT);
    is("close", "the last", gb_close(&third), 0);
    is("close", "leaves a blank pass", third.at != NULL, 0);
}

/* One file, f, in a cache of its own. */
static void try_texts_and_passes(void)
{
    try_blank("a pass that was never opened");
    is("cache_new", "", gb_cache_new(256, INODES, &pass), 0);
    is("create", "f", create(&pass, "/f", 2), 0);
    try_texts();
    is("split", "", gb_pass_split(&pass, &blank), 0);
    is("close", "", gb_close(&blank), 0);
    try_blank("a pass after its end");
    is("close", "", gb_close(&pass), 0);
}

int main(void)
{
    try_sizes();
    try_names();
    try_texts_and_passes();
    try_a_deep_path();
    make_all();
    look_all();
    look_by_rows();
    read_all();
    read_with_little_room();
    move_all();
    remove_all();
    try_loops_and_limits();
    learn_and_shrink();
    split_and_join();
    printf("%d answers are not as they should be\n", wrong);
    return wrong != 0;
}

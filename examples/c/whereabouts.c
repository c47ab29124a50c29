/* Asks where directories are, with good and bad arguments, by one thread, and compares what gb_path_of and its
 * form that never waits answer.
 *
 * Prints each answer that is not as it should be, and last how many were. Ends with 1 if there was one.
 */
#include <errno.h>
#include <gigbewu.h>
#include <stdio.h>
#include <string.h>

enum { INODES = 32, LONGEST_NAME = 255, BEHIND = 4, ROOM = GB_PATH_MOST + BEHIND };

static struct gb_gate gate;
static struct gb_pass pass;
static struct gb_found found;
static struct gb_gone gone;
static int wrong;

/* `what` says which answer, `detail` of what. */
static void is(const char *what, const char *detail, int64_t got, int64_t want)
{
    if (got == want)
        return;
    wrong++;
    printf("%s %s: %lld, not %lld\n", what, detail, (long long)got, (long long)want);
}

/* The directory's path, by both forms: with more room than it needs, which is left alone, and with just enough. */
static void is_at(const char *what, uint64_t number, const char *want, size_t length)
{
    static char path[ROOM];
    for (size_t room = GB_PATH_MOST; room <= ROOM; room += BEHIND) {
        memset(path, '#', sizeof path);
        int waits = room > GB_PATH_MOST;
        is(what, "answer", waits ? gb_path_of(&gate, &pass, number, path, room, &found)
                                 : gb_try_path_of(&pass, number, path, room, &found), 0);
        is(what, "number", (int64_t)found.number, (int64_t)number);
        is(what, "kind", found.kind, GB_DIR);
        is(what, "bytes", (int64_t)found.count, (int64_t)length);
        is(what, "path", memcmp(path, want, length), 0);
        is(what, "behind the room", memcmp(path + GB_PATH_MOST, "####", BEHIND), 0);
    }
}

static void is_refused(const char *what, uint64_t number, int want)
{
    static char path[ROOM];
    is(what, "refusal", gb_path_of(&gate, &pass, number, path, sizeof path, &found), want);
    is(what, "tells no number", (int64_t)found.number, 0);
    is(what, "tells no bytes", (int64_t)found.count, 0);
}

static uint64_t made_in(uint64_t base, const char *name, size_t length)
{
    is("mkdir", "", gb_mkdir(&gate, &pass, base, name, length, &found), 0);
    return found.number;
}

static void find_all(void)
{
    uint64_t a = made_in(GB_ROOT, "/a", 2), b = made_in(a, "b", 1);
    is_at("the root", GB_ROOT, "/", 1);
    is_at("a", a, "/a", 2);
    is_at("b", b, "/a/b", 4);
    is("rename", "", gb_rename(&gate, &pass, GB_ROOT, "/a", 2, "/long", 5, 0, &found, &gone), 0);
    is_at("b in what was renamed", b, "/long/b", 7);
    is("create", "", gb_create(&gate, &pass, GB_ROOT, "/f", 2, &found), 0);
    uint64_t file = found.number;
    is("symlink", "", gb_symlink(&gate, &pass, GB_ROOT, "long", 4, "/l", 2, &found), 0);
    uint64_t link = found.number;
    is_refused("a file", file, ENOENT);
    is_refused("a link to a directory", link, ENOENT);
    is("exchange", "", gb_rename(&gate, &pass, GB_ROOT, "/f", 2, "/long", 5, GB_EXCHANGE, &found, &gone), 0);
    is_at("b after an exchange", b, "/f/b", 4);
    is("rmdir", "", gb_rmdir(&gate, &pass, GB_ROOT, "/f/b", 4, &found, &gone), 0);
    is_refused("a directory that is gone", b, ENOENT);
    is("at", "of a refusal", (int64_t)found.at, 7);
    is_refused("a number never made", 99, ENOENT);
    is_refused("no number", 0, ENOENT);
}

/* Fifteen names of 255 bytes, with their slashes 3,840, and one that makes 4,095 of them, or 4,096. */
static void find_longest(void)
{
    static char name[LONGEST_NAME], path[GB_PATH_MOST];
    uint64_t base = GB_ROOT;
    memset(name, 'n', sizeof name);
    memset(path, 'n', sizeof path);
    for (size_t i = 0; i < 15; i++)
        base = made_in(base, name, sizeof name);
    for (size_t i = 0; i < sizeof path; i += sizeof name + 1)
        path[i] = '/';
    is_at("a path of 4,095 bytes", made_in(base, name, sizeof name - 1), path, sizeof path);
    is_refused("a path of 4,096 bytes", made_in(base, name, sizeof name), ENAMETOOLONG);
}

static void try_bad_arguments(void)
{
    static char path[GB_PATH_MOST];
    struct gb_pass blank = {0};
    memset(path, '#', sizeof path);
    found.number = 99;
    is("path_of", "too little room", gb_try_path_of(&pass, GB_ROOT, path, sizeof path - 1, &found), GB_BAD_ARGUMENT);
    is("path_of", "no room", gb_path_of(&gate, &pass, GB_ROOT, path, 0, &found), GB_BAD_ARGUMENT);
    is("path_of", "a blank pass", gb_try_path_of(&blank, GB_ROOT, path, sizeof path, &found), GB_BAD_PASS);
    is("path_of", "writes nothing then", path[0] == '#' && path[sizeof path - 1] == '#', 1);
    is("path_of", "finds nothing then", (int64_t)found.number, 99);
}

int main(void)
{
    gate = gb_gate_new();
    is("cache_new", "", gb_cache_new(64, INODES, &pass), 0);
    find_all();
    find_longest();
    try_bad_arguments();
    is("close", "", gb_close(&pass), 0);
    printf("%d answers of gb_path_of are not as they should be\n", wrong);
    return wrong != 0;
}

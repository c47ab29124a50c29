/* Reads directories some entries at a time, with good and bad arguments, by one thread, and compares what gb_entries
 * and its form that never waits answer.
 *
 * Prints each answer that is not as it should be, and last how many were. Ends with 1 if there was one.
 */
#include <errno.h>
#include <gigbewu.h>
#include <stdio.h>
#include <string.h>

enum { INODES = 64, NAMES = 20, LONGEST_NAME = 255, ROOM = 8 };

static struct gb_gate gate;
static struct gb_pass pass;
static struct gb_found found;
static struct gb_gone gone;
static struct gb_entry page[ROOM], mark;
/* The number that each name leads to, and how often a run told it. */
static uint64_t numbers[NAMES];
static int told[NAMES];
static int wrong;

/* `what` says which answer, `detail` of what. */
static void is(const char *what, const char *detail, int64_t got, int64_t want)
{
    if (got == want)
        return;
    wrong++;
    printf("%s %s: %lld, not %lld\n", what, detail, (long long)got, (long long)want);
}

static void mark_page(void)
{
    memset(&mark, '#', sizeof mark);
    for (int i = 0; i < ROOM; i++)
        page[i] = mark;
}

static int is_marked(size_t from)
{
    for (size_t i = from; i < ROOM; i++)
        if (memcmp(&page[i], &mark, sizeof mark) != 0)
            return 0;
    return 1;
}

/* A page by either form. */
static int ask(int waits, const char *path, size_t len, const char *after, size_t after_len, size_t room)
{
    mark_page();
    return waits ? gb_entries(&gate, &pass, GB_ROOT, path, len, after, after_len, page, room, &found)
                 : gb_try_entries(&pass, GB_ROOT, path, len, after, after_len, page, room, &found);
}

/* The names are n00, n01, ..: directories, files and links in turn. The last is made first. */
static void make_names(void)
{
    char path[] = "/d/n00";
    is("mkdir", "", gb_mkdir(&gate, &pass, GB_ROOT, "/d", 2, &found), 0);
    for (int i = NAMES; i-- > 0;) {
        path[4] = (char)('0' + i / 10);
        path[5] = (char)('0' + i % 10);
        is("make", path, i % 3 == 0   ? gb_mkdir(&gate, &pass, GB_ROOT, path, 6, &found)
                         : i % 3 == 1 ? gb_create(&gate, &pass, GB_ROOT, path, 6, &found)
                                      : gb_symlink(&gate, &pass, GB_ROOT, "n00", 3, path, 6, &found), 0);
        numbers[i] = found.number;
    }
}

static void is_entry(const struct gb_entry *entry)
{
    int which = (entry->name[1] - '0') * 10 + entry->name[2] - '0';
    int known = entry->length == 3 && entry->name[0] == 'n' && which >= 0 && which < NAMES;
    is("entry", "has a known name", known, 1);
    if (!known)
        return;
    told[which]++;
    is(entry->name, "number", (int64_t)entry->number, (int64_t)numbers[which]);
    is(entry->name, "kind", entry->kind, which % 3 == 0 ? GB_DIR : which % 3 == 1 ? GB_FILE : GB_LINK);
    for (size_t i = entry->length; i < sizeof entry->name; i++)
        is(entry->name, "zero behind it", entry->name[i], 0);
}

/* Reads the directory with this much room at a time, and takes the first name of the last page away on the way, if so
 * asked: the run goes on behind a name that stands there no more. */
static void read_all(int waits, size_t room, int removes)
{
    struct gb_entry last = {0, 0, 0, {0}};
    memset(told, 0, sizeof told);
    do {
        is("entries", "answer", ask(waits, "/d", 2, last.name, last.length, room), 0);
        is("entries", "kind of the directory", found.kind, GB_DIR);
        is("entries", "number of the directory", (int64_t)found.number, 2);
        is("entries", "at most the room", found.count <= room, 1);
        is("entries", "behind them as it was", is_marked((size_t)found.count), 1);
        for (uint64_t i = 0; i < found.count; i++) {
            const char *before = i == 0 ? last.name : page[i - 1].name;
            is("entries", "in the order of their bytes", memcmp(before, page[i].name, 3) < 0, 1);
            is_entry(&page[i]);
        }
        if (found.count == 0)
            break;
        last = page[found.count - 1];
        if (removes && last.kind == GB_FILE) {
            char path[] = "/d/n00";
            memcpy(path + 3, last.name, 3);
            uint64_t count = found.count;
            is("unlink", path, gb_unlink(&gate, &pass, GB_ROOT, path, 6, &found, &gone), 0);
            found.count = count;
        }
    } while (found.count == room);
    for (int i = 0; i < NAMES; i++)
        is("a run", "tells each name once", told[i], 1);
}

static void read_others(void)
{
    static char path[1 + LONGEST_NAME];
    memset(path, 'l', sizeof path);
    path[0] = '/';
    is("entries", "of an empty directory", ask(0, "/d/n00", 6, "", 0, ROOM), 0);
    is("entries", "none", (int64_t)found.count, 0);
    is("entries", "writes none", is_marked(0), 1);
    is("entries", "through a link", ask(1, "/d/n02", 6, "", 0, ROOM), 0);
    is("entries", "of what the link leads to", (int64_t)found.number, (int64_t)numbers[0]);
    is("entries", "of a file", ask(1, "/d/n01", 6, "", 0, ROOM), ENOTDIR);
    is("entries", "of nothing", ask(0, "/e", 2, "", 0, ROOM), ENOENT);
    is("entries", "refused, count", (int64_t)found.count, 0);
    is("entries", "refused, writes none", is_marked(0), 1);
    is("create", "the longest name", gb_create(&gate, &pass, GB_ROOT, path, sizeof path, &found), 0);
    is("entries", "of the root", ask(0, "/", 1, "", 0, ROOM), 0);
    is("entries", "two", (int64_t)found.count, 2);
    const struct gb_entry *longest = &page[page[0].length == 1];
    is("entries", "longest name, length", longest->length, LONGEST_NAME);
    is("entries", "longest name", memcmp(longest->name, path + 1, LONGEST_NAME), 0);
    is("entries", "longest name, zero", longest->name[LONGEST_NAME], 0);
    is("entries", "behind the longest name", ask(1, "/", 1, path + 1, LONGEST_NAME, ROOM), 0);
}

static void is_bad(const char *what, const char *after, size_t after_len, size_t room)
{
    for (int waits = 0; waits < 2; waits++) {
        found.number = 99;
        is(what, "answer", ask(waits, "/d", 2, after, after_len, room), GB_BAD_ARGUMENT);
        is(what, "writes none", is_marked(0), 1);
        is(what, "finds nothing", (int64_t)found.number, 99);
    }
}

static void try_bad_arguments(void)
{
    static char long_name[LONGEST_NAME + 1];
    struct gb_pass blank = {0};
    memset(long_name, 'l', sizeof long_name);
    is_bad("no room", "", 0, 0);
    is_bad("behind a dot", ".", 1, ROOM);
    is_bad("behind two dots", "..", 2, ROOM);
    is_bad("behind a path", "a/b", 3, ROOM);
    is_bad("behind a zero byte", "a\0b", 3, ROOM);
    is_bad("behind a name that is too long", long_name, sizeof long_name, ROOM);
    mark_page();
    is("entries", "a blank pass", gb_try_entries(&blank, GB_ROOT, "/d", 2, "", 0, page, ROOM, &found), GB_BAD_PASS);
    is("entries", "a blank pass, writes none", is_marked(0), 1);
}

int main(void)
{
    gate = gb_gate_new();
    is("cache_new", "", gb_cache_new(64, INODES, &pass), 0);
    is("size", "of an entry", sizeof(struct gb_entry), 272);
    make_names();
    for (size_t room = 1; room <= ROOM; room++)
        read_all(room % 2 == 0, room, 0);
    read_others();
    read_all(1, 3, 1);
    try_bad_arguments();
    is("close", "", gb_close(&pass), 0);
    printf("%d answers of gb_entries are not as they should be\n", wrong);
    return wrong != 0;
}

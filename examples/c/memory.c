/* Refuses each allocation of a call in turn: the call must answer GB_NO_MEMORY and change nothing, and succeed once it is
 * refused none. Look-ups must answer without any memory, and calls that take none must ask for none. Linked with
 * --wrap=malloc,--wrap=realloc.
 *
 * Prints the same whatever the library's number of allocations is.
 */
#include <errno.h>
#include <gigbewu.h>
#include <stdio.h>
#include <stdlib.h>
#include <string.h>

enum { ROOT = 1, NEVER = -1, MOST = 10000, LOOKS = 100 };

void *__real_malloc(size_t size);
void *__real_realloc(void *old, size_t size);
void *__wrap_malloc(size_t size);
void *__wrap_realloc(void *old, size_t size);

static struct gb_pass pass, other;
static struct gb_found found;
static struct gb_gone gone;
/* How many allocations are still granted. */
static long granted = NEVER;
static long refused;
static long asked;

static int is_refused(void)
{
    asked++;
    if (granted == NEVER)
        return 0;
    if (granted == 0)
        refused++;
    return granted == 0 || granted-- == 0;
}

void *__wrap_malloc(size_t size)
{
    return is_refused() ? NULL : __real_malloc(size);
}

void *__wrap_realloc(void *old, size_t size)
{
    return is_refused() ? NULL : __real_realloc(old, size);
}

static void must(int right, const char *what)
{
    granted = NEVER;
    if (!right) {
        printf("%s: not as it should be\n", what);
        exit(1);
    }
}

static int make(void)
{
    return gb_cache_new(16, 1000, &pass);
}

static int split(void)
{
    return gb_pass_split(&pass, &other);
}

static int mkdir(void)
{
    return gb_try_mkdir(&pass, ROOT, "/directory", 10, &found);
}

static int create(void)
{
    return gb_try_create(&pass, ROOT, "/file", 5, &found);
}

static int symlink(void)
{
    return gb_try_symlink(&pass, ROOT, "directory/again", 15, "/link", 5, &found);
}

static int link(void)
{
    return gb_try_link(&pass, ROOT, "/file", 5, "/directory/again", 16, &found);
}

static int rename_file(void)
{
    return gb_try_rename(&pass, ROOT, "/file", 5, "/directory/moved", 16, 0, &found, &gone);
}

static int readlink(void)
{
    char text[1];
    return gb_try_readlink(&pass, ROOT, "/link", 5, text, 0, &found);
}

static int list(void)
{
    char names[1];
    return gb_try_list(&pass, ROOT, "/directory", 10, names, 0, &found);
}

static int entries(void)
{
    struct gb_entry page[1];
    return gb_try_entries(&pass, ROOT, "/directory", 10, "", 0, page, 1, &found);
}

static uint64_t changes_made(void)
{
    uint64_t clock = 0;
    return pass.at && gb_learn(&pass, 0, &clock) == 0 ? clock : 0;
}

/* Grants one allocation more each time. */
static void refuse_each(const char *what, int (*call)(void))
{
    uint64_t before = changes_made();
    for (long most = 0; most < MOST; most++) {
        granted = most;
        int answer = call();
        granted = NEVER;
        if (answer == 0)
            return;
        must(answer == GB_NO_MEMORY && changes_made() == before, what);
    }
    must(0, what);
}

static void look_without_memory(void)
{
    granted = 0;
    uint64_t trail[2];
    for (int i = 0; i < LOOKS; i++) {
        char path[] = "/directory/00";
        path[11] = (char)('0' + i / 10);
        path[12] = (char)('0' + i % 10);
        must(gb_try_look(&pass, ROOT, path, sizeof path - 1, GB_FOLLOW, &found) == ENOENT, "look");
        granted = 0;
        must(gb_try_resolve(&pass, ROOT, path, sizeof path - 1, GB_FOLLOW, &found) == ENOENT, "resolve");
        granted = 0;
    }
    must(gb_try_look_along(&pass, ROOT, "/absent", 7, GB_FOLLOW, trail, 2, &found) == ENOENT, "look_along of a miss");
    granted = 0;
    must(gb_try_look_along(&pass, ROOT, "/link", 5, GB_FOLLOW, trail, 2, &found) == 0, "look_along");
    granted = 0;
    must(gb_try_resolve(&pass, ROOT, "/link", 5, GB_FOLLOW, &found) == 0, "resolve");
    granted = 0;
    must(gb_try_look(&pass, ROOT, "/link", 5, GB_FOLLOW, &found) == 0, "look");
    granted = 0;
    must(gb_try_stat(&pass, ROOT, "/link", 5, &found) == 0, "stat");
}

static void must_ask_for_none(int answer, int wanted, const char *what)
{
    long so_far = asked;
    asked = 0;
    must(answer == wanted && so_far == 0, what);
}

static void take_no_memory(void)
{
    static char path[GB_PATH_MOST];
    uint64_t number, trail[2];
    must(gb_try_look(&pass, ROOT, "/link", 5, GB_FOLLOW, &found) == 0, "rows of a link");
    asked = 0;
    must_ask_for_none(gb_look_fast(&pass, ROOT, "/link", 5, GB_FOLLOW, &found), 0, "look_fast");
    must_ask_for_none(gb_look_fast(&pass, ROOT, "/never", 6, GB_FOLLOW, &found), GB_AGAIN, "look_fast of a miss");
    must_ask_for_none(gb_look_fast(&pass, ROOT, "", 0, GB_FOLLOW, &found), ENOENT, "look_fast of no path");
    must_ask_for_none(gb_readlink_fast(&pass, ROOT, "/link", 5, &found), 0, "readlink_fast");
    must_ask_for_none(gb_readlink_fast(&pass, ROOT, "/directory", 10, &found), EINVAL, "readlink_fast of a directory");
    must_ask_for_none(gb_try_stat(&pass, ROOT, "/link", 5, &found), 0, "stat");
    must_ask_for_none(gb_look_fast_along(&pass, ROOT, "/link", 5, GB_FOLLOW, trail, 2, &found), 0, "look_fast_along");
    must_ask_for_none(gb_look_fast_along(&pass, ROOT, "/lost", 5, GB_FOLLOW, trail, 2, &found), GB_AGAIN,
                      "look_fast_along of a miss");
    must_ask_for_none(gb_look_fast_along(&pass, ROOT, "/link", 5, GB_FOLLOW, trail, 1, &found), GB_NO_ROOM,
                      "look_fast_along without a place");
    must_ask_for_none(gb_look_fast_along(&pass, ROOT, "", 0, GB_FOLLOW, trail, 2, &found), ENOENT,
                      "look_fast_along of no path");
    must_ask_for_none(gb_try_look_along(&pass, ROOT, "/link", 5, GB_FOLLOW, trail, 2, &found), 0, "look_along by rows");
    must_ask_for_none(gb_try_path_of(&pass, ROOT, path, sizeof path, &found), 0, "path_of");
    must_ask_for_none(gb_learn(&pass, 0, &number), 0, "learn");
    must_ask_for_none(gb_counts(&pass, &number), 0, "counts");
    must_ask_for_none(gb_rows_in_use(&pass, &number), 0, "rows_in_use");
    must_ask_for_none(gb_try_shrink(&pass, UINT64_MAX, &number), 0, "shrink");
    must_ask_for_none(gb_pass_join(&pass, &other), 0, "join");
    must_ask_for_none(gb_close(&pass), 0, "close");
}

int main(void)
{
    refuse_each("cache_new", make);
    refuse_each("split", split);
    refuse_each("mkdir", mkdir);
    refuse_each("create", create);
    refuse_each("symlink", symlink);
    refuse_each("link", link);
    look_without_memory();
    refuse_each("readlink", readlink);
    refuse_each("list", list);
    refuse_each("entries", entries);
    refuse_each("rename", rename_file);
    must(refused > 0, "no allocation was seen");
    take_no_memory();
    printf("each allocation refused in turn: nothing changed\n");
    return 0;
}

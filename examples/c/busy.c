/* Each blocking form of the header beside functions of this file in place of the library: a form makes the call of its name
 * with its own arguments until the answer is another than GB_BUSY, hands that answer on, and leaves nobody counted at the
 * gate. Calls are busy not at all, once, until after the last pause, and for longer than a thread stays awake. Prints what
 * is not as it should be, and last how much was.
 */
#include <gigbewu.h>
#include <stdio.h>
#include <string.h>

enum { ANSWER = 7, MOST = 12, BUSY_LONG = GB_PAUSES + GB_YIELDS + 3 };

static struct gb_gate gate;
static struct gb_pass pass;
static struct gb_found found;
static struct gb_gone gone;
static char bytes[3];
static struct gb_entry entries[1];
static uint64_t emptied, trail[1];
static const char path[] = "p", other[] = "o";
static int wrong, sleeps, by_rows = GB_AGAIN;

/* What the library's functions were called with: their name, how often, and what a word says of each argument. */
static const char *called;
static int calls, busy;
static uintptr_t given[MOST];

static void is(const char *form, const char *what, int64_t got, int64_t want)
{
    if (got == want)
        return;
    wrong++;
    printf("%s, busy %d times: %s is %lld, not %lld\n", form, busy, what, (long long)got, (long long)want);
}

static int call(const char *name, const uintptr_t *words, size_t count)
{
    called = name;
    memset(given, 0, sizeof given);
    memcpy(given, words, count * sizeof *words);
    return calls++ < busy ? GB_BUSY : ANSWER;
}

#define WORD(it) (uintptr_t)(it)
#define CALL(name, ...)                              \
    const uintptr_t words[] = {WORD(pass), __VA_ARGS__}; \
    return call(name, words, sizeof words / sizeof *words)

int gb_look_fast(struct gb_pass *pass, uint64_t base, const char *path, size_t len, uint32_t follow,
                 struct gb_found *found)
{
    (void)pass, (void)base, (void)path, (void)len, (void)follow, (void)found;
    return by_rows;
}

int gb_readlink_fast(struct gb_pass *pass, uint64_t base, const char *path, size_t len, struct gb_found *found)
{
    (void)pass, (void)base, (void)path, (void)len, (void)found;
    return GB_AGAIN;
}

int gb_try_resolve(struct gb_pass *pass, uint64_t base, const char *path, size_t len, uint32_t follow,
                   struct gb_found *found)
{
    CALL("resolve", base, WORD(path), len, follow, WORD(found));
}

int gb_try_look(struct gb_pass *pass, uint64_t base, const char *path, size_t len, uint32_t follow,
                struct gb_found *found)
{
    CALL("look", base, WORD(path), len, follow, WORD(found));
}

int gb_try_look_along(struct gb_pass *pass, uint64_t base, const char *path, size_t len, uint32_t follow,
                      uint64_t *trail, size_t places, struct gb_found *found)
{
    CALL("look_along", base, WORD(path), len, follow, WORD(trail), places, WORD(found));
}

int gb_look_fast_along(struct gb_pass *pass, uint64_t base, const char *path, size_t len, uint32_t follow,
                       uint64_t *trail, size_t places, struct gb_found *found)
{
    (void)pass, (void)base, (void)path, (void)len, (void)follow, (void)trail, (void)places, (void)found;
    return by_rows;
}

int gb_try_stat(struct gb_pass *pass, uint64_t base, const char *path, size_t len, struct gb_found *found)
{
    CALL("stat", base, WORD(path), len, WORD(found));
}

int gb_try_readlink(struct gb_pass *pass, uint64_t base, const char *path, size_t len, char *text, size_t room,
                    struct gb_found *found)
{
    CALL("readlink", base, WORD(path), len, WORD(text), room, WORD(found));
}

int gb_try_list(struct gb_pass *pass, uint64_t base, const char *path, size_t len, char *names, size_t room,
                struct gb_found *found)
{
    CALL("list", base, WORD(path), len, WORD(names), room, WORD(found));
}

int gb_try_entries(struct gb_pass *pass, uint64_t base, const char *path, size_t len, const char *after,
                   size_t after_len, struct gb_entry *entries, size_t room, struct gb_found *found)
{
    CALL("entries", base, WORD(path), len, WORD(after), after_len, WORD(entries), room, WORD(found));
}

int gb_try_path_of(struct gb_pass *pass, uint64_t number, char *path, size_t room, struct gb_found *found)
{
    CALL("path_of", number, WORD(path), room, WORD(found));
}

int gb_try_mkdir(struct gb_pass *pass, uint64_t base, const char *path, size_t len, struct gb_found *found)
{
    CALL("mkdir", base, WORD(path), len, WORD(found));
}

int gb_try_create(struct gb_pass *pass, uint64_t base, const char *path, size_t len, struct gb_found *found)
{
    CALL("create", base, WORD(path), len, WORD(found));
}

int gb_try_symlink(struct gb_pass *pass, uint64_t base, const char *text, size_t text_len, const char *path, size_t len,
                   struct gb_found *found)
{
    CALL("symlink", base, WORD(text), text_len, WORD(path), len, WORD(found));
}

int gb_try_link(struct gb_pass *pass, uint64_t base, const char *old_path, size_t old_len, const char *path, size_t len,
                struct gb_found *found)
{
    CALL("link", base, WORD(old_path), old_len, WORD(path), len, WORD(found));
}

int gb_try_unlink(struct gb_pass *pass, uint64_t base, const char *path, size_t len, struct gb_found *found,
                  struct gb_gone *gone)
{
    CALL("unlink", base, WORD(path), len, WORD(found), WORD(gone));
}

int gb_try_rmdir(struct gb_pass *pass, uint64_t base, const char *path, size_t len, struct gb_found *found,
                 struct gb_gone *gone)
{
    CALL("rmdir", base, WORD(path), len, WORD(found), WORD(gone));
}

int gb_try_rename(struct gb_pass *pass, uint64_t base, const char *old_path, size_t old_len, const char *path,
                  size_t len, uint32_t flags, struct gb_found *found, struct gb_gone *gone)
{
    CALL("rename", base, WORD(old_path), old_len, WORD(path), len, flags, WORD(found), WORD(gone));
}

int gb_try_shrink(struct gb_pass *pass, uint64_t most, uint64_t *emptied)
{
    CALL("shrink", most, WORD(emptied));
}

/* Nobody would wake the only thread. */
static void wait_not(struct gb_gate *at, uint32_t seen)
{
    (void)at, (void)seen;
    sleeps++;
}

static void begin(void)
{
    calls = 0;
    sleeps = 0;
}

/* After a form has answered. */
static void end(const char *form, const char *name, int answer, const uintptr_t *words, size_t count)
{
    is(form, "the answer", answer, ANSWER);
    is(form, "the call's name", strcmp(called, name), 0);
    is(form, "the number of calls", calls, busy + 1);
    is(form, "whether it slept", sleeps > 0, busy == BUSY_LONG);
    for (size_t i = 0; i < count; i++)
        is(form, "an argument", (int64_t)given[i], (int64_t)words[i]);
    is(form, "sleepers", gate.sleepers, 0);
    is(form, "tickets that are out", (int64_t)(gate.tickets - gate.served), 0);
}

#define TRY(form, name, arguments, ...)                                                   \
    do {                                                                                  \
        const uintptr_t words[] = {WORD(&pass), __VA_ARGS__};                             \
        begin();                                                                          \
        end(#form, name, form arguments, words, sizeof words / sizeof *words);            \
    } while (0)

/* Each argument is another than all beside it. */
static void try_forms(void)
{
    TRY(gb_look_missed, "look", (&gate, &pass, 2, path, 3, 4, &found), 2, WORD(path), 3, 4, WORD(&found));
    TRY(gb_look, "look", (&gate, &pass, 2, path, 3, 4, &found), 2, WORD(path), 3, 4, WORD(&found));
    TRY(gb_resolve, "resolve", (&gate, &pass, 2, path, 3, 4, &found), 2, WORD(path), 3, 4, WORD(&found));
    TRY(gb_look_along, "look_along", (&gate, &pass, 2, path, 3, 4, trail, 5, &found), 2, WORD(path), 3, 4, WORD(trail), 5,
        WORD(&found));
    TRY(gb_stat, "stat", (&gate, &pass, 2, path, 3, &found), 2, WORD(path), 3, WORD(&found));
    TRY(gb_readlink, "readlink", (&gate, &pass, 2, path, 3, bytes, 4, &found), 2, WORD(path), 3, WORD(bytes), 4,
        WORD(&found));
    TRY(gb_list, "list", (&gate, &pass, 2, path, 3, bytes, 4, &found), 2, WORD(path), 3, WORD(bytes), 4, WORD(&found));
    TRY(gb_entries, "entries", (&gate, &pass, 2, path, 3, other, 4, entries, 5, &found), 2, WORD(path), 3, WORD(other), 4,
        WORD(entries), 5, WORD(&found));
    TRY(gb_path_of, "path_of", (&gate, &pass, 2, bytes, 3, &found), 2, WORD(bytes), 3, WORD(&found));
    TRY(gb_mkdir, "mkdir", (&gate, &pass, 2, path, 3, &found), 2, WORD(path), 3, WORD(&found));
    TRY(gb_create, "create", (&gate, &pass, 2, path, 3, &found), 2, WORD(path), 3, WORD(&found));
    TRY(gb_symlink, "symlink", (&gate, &pass, 2, other, 3, path, 4, &found), 2, WORD(other), 3, WORD(path), 4,
        WORD(&found));
    TRY(gb_link, "link", (&gate, &pass, 2, other, 3, path, 4, &found), 2, WORD(other), 3, WORD(path), 4, WORD(&found));
    TRY(gb_unlink, "unlink", (&gate, &pass, 2, path, 3, &found, &gone), 2, WORD(path), 3, WORD(&found), WORD(&gone));
    TRY(gb_rmdir, "rmdir", (&gate, &pass, 2, path, 3, &found, &gone), 2, WORD(path), 3, WORD(&found), WORD(&gone));
    TRY(gb_rename, "rename", (&gate, &pass, 2, other, 3, path, 4, 5, &found, &gone), 2, WORD(other), 3, WORD(path), 4, 5,
        WORD(&found), WORD(&gone));
    TRY(gb_shrink, "shrink", (&gate, &pass, 2, &emptied), 2, WORD(&emptied));
}

/* What the rows answer while a ticket is out doesn't wait. */
static void look_past_a_ticket(void)
{
    begin();
    gate.tickets++;
    by_rows = ANSWER;
    is("gb_resolve", "the answer while a ticket is out", gb_resolve(&gate, &pass, 2, path, 3, 4, &found), ANSWER);
    is("gb_look_along", "the answer while a ticket is out",
       gb_look_along(&gate, &pass, 2, path, 3, 4, trail, 5, &found), ANSWER);
    is("both", "the number of calls while a ticket is out", calls + sleeps, 0);
    gate.tickets--;
    by_rows = GB_AGAIN;
}

/* The tree says whether there are too few places. */
static void look_along_without_room(void)
{
    begin();
    busy = 0;
    by_rows = GB_NO_ROOM;
    is("gb_look_along", "the answer without room by the rows",
       gb_look_along(&gate, &pass, 2, path, 3, 4, trail, 5, &found), ANSWER);
    is("gb_look_along", "the number of calls without room by the rows", calls, 1);
    by_rows = GB_AGAIN;
}

int main(void)
{
    static const int often[] = {0, 1, GB_PAUSES + 1, BUSY_LONG};
    gate = gb_gate_new();
    gate.wait = wait_not;
    for (size_t i = 0; i < sizeof often / sizeof *often; i++) {
        busy = often[i];
        try_forms();
    }
    look_past_a_ticket();
    look_along_without_room();
    printf("%d things of blocking forms are not as they should be\n", wrong);
    return wrong != 0;
}

#include "tree.h"
#include "ways.h"
#include <errno.h>
#include <gigbewu.h>
#include <stdatomic.h>
#include <stdio.h>
#include <stdlib.h>
#include <string.h>

/* Two rows for each inode that may live: they take some 200 MB, and 340 while they are made. */
enum { BUCKETS = TREE_INODES / 2 };

static struct gb_gate gate;
static struct gb_pass first_pass; /* its lock is `splitting` */
static pthread_mutex_t splitting = PTHREAD_MUTEX_INITIALIZER;
static pthread_key_t own_pass;
static atomic_long by_rows, by_lock[GB_WHY_LINK + 1], pages, listed, texts, copies;
/* Changes that were made, of each kind, and how many the tree refused. */
enum change { MAKE, LINK, REMOVE, RENAME, CHANGES };
static atomic_long changes[CHANGES], refused;
/* Whoever has it may rely on the parents and names of directories. */
static pthread_mutex_t moving = PTHREAD_MUTEX_INITIALIZER;

static void end_pass(void *pass)
{
    gb_close(pass);
    free(pass);
}

int tree_begin(void)
{
    gate = gb_gate_new();
    if (gb_cache_new(BUCKETS, TREE_INODES, &first_pass) != 0 || pthread_key_create(&own_pass, end_pass) != 0)
        return ENOMEM;
    return 0;
}

void tree_end(void)
{
    struct gb_pass *own = pthread_getspecific(own_pass);
    if (own)
        end_pass(own);
    gb_close(&first_pass);
}

/* libfuse starts and ends threads as it likes. */
static struct gb_pass *split_pass(void)
{
    struct gb_pass *pass = calloc(1, sizeof *pass);
    int answer = GB_NO_MEMORY;
    if (pass) {
        pthread_mutex_lock(&splitting);
        answer = gb_pass_split(&first_pass, pass);
        pthread_mutex_unlock(&splitting);
    }
    if (answer != 0 || pthread_setspecific(own_pass, pass) != 0) {
        fprintf(stderr, "gbfs: no memory for a thread\n");
        abort();
    }
    return pass;
}

static struct gb_pass *pass(void)
{
    struct gb_pass *own = pthread_getspecific(own_pass);
    return own ? own : split_pass();
}

void tree_tell(void)
{
    uint64_t evictions = 0, rows = 0;
    gb_counts(pass(), &evictions);
    gb_rows_in_use(pass(), &rows);
    fprintf(stderr, "look-ups: %ld without the lock; with it %ld to fill rows, %ld of long paths, %ld beside a change\n",
            by_rows, by_lock[GB_WHY_MISS] + by_lock[GB_WHY_LINK], by_lock[GB_WHY_LONG],
            by_lock[GB_WHY_BUSY] + by_lock[GB_WHY_CHANGED]);
    fprintf(stderr, "rows in use: %llu; rows that another name got: %llu; pages of directories: %ld, with %ld entries; ",
            (unsigned long long)rows, (unsigned long long)evictions, pages, listed);
    fprintf(stderr, "texts of links: %ld, and %ld from copies\n", texts, copies);
    fprintf(stderr, "changes: %ld makes, %ld links, %ld removals, %ld renames, and %ld refused; ", changes[MAKE],
            changes[LINK], changes[REMOVE], changes[RENAME], refused);
}

static int told(int answer)
{
    if (answer >= 0)
        return answer;
    if (answer == GB_BAD_ARGUMENT)
        return EINVAL;
    return answer == GB_NO_MEMORY ? ENOMEM : EIO;
}

/* Of a change. */
static int changed(enum change change, int answer)
{
    if (answer >= 0)
        atomic_fetch_add(answer == 0 ? &changes[change] : &refused, 1);
    return told(answer);
}

static int look(uint64_t parent, const char *name, struct gb_found *found)
{
    size_t len = strlen(name);
    int answer = gb_look_fast(pass(), parent, name, len, GB_NO_FOLLOW, found);
    if (answer != GB_AGAIN) {
        atomic_fetch_add(&by_rows, 1);
        return told(answer);
    }
    atomic_fetch_add(&by_lock[found->why <= GB_WHY_LINK ? found->why : 0], 1);
    return told(gb_look_missed(&gate, pass(), parent, name, len, GB_NO_FOLLOW, found));
}

/* If what was found has gone since, the name is asked again: it leads elsewhere now, or nowhere. */
static int look_body(uint64_t parent, const char *name, struct body **body)
{
    struct gb_found found;
    do {
        int answer = look(parent, name, &found);
        if (answer != 0)
            return answer;
        *body = body_of(found.number);
    } while (!*body);
    return 0;
}

/* Where it can be found: a file for a link to it, which may have lost this name since, and a directory for the ways to
 * what is below, always rightly, as only a rename gives it another name. */
static void remember(struct body *body, uint64_t parent, const char *name)
{
    pthread_mutex_lock(&body->lock);
    if (!body->name || body->parent != parent || strcmp(body->name, name) != 0) {
        free(body->name);
        body->name = strdup(name);
        body->parent = parent;
    }
    pthread_mutex_unlock(&body->lock);
}

int tree_look(uint64_t parent, const char *name, struct body **body)
{
    int answer = look_body(parent, name, body);
    if (answer == 0 && !S_ISDIR((*body)->mode))
        remember(*body, parent, name);
    return answer;
}

static int make_inode(mode_t mode, uint64_t parent, const char *name, const char *text, struct gb_found *found)
{
    size_t len = strlen(name);
    if (S_ISDIR(mode))
        return gb_mkdir(&gate, pass(), parent, name, len, found);
    if (S_ISREG(mode))
        return gb_create(&gate, pass(), parent, name, len, found);
    return gb_symlink(&gate, pass(), parent, text, strlen(text), name, len, found);
}

/* Whether the body has all that it needs before its inode is made. A link's text stays as it is, so the body has it too,
 * for whoever asks by number. */
static bool is_ready(struct body *body, uint64_t parent, const char *name, const char *text)
{
    size_t len = text ? strlen(text) : 0;
    remember(body, parent, name);
    body->size = pages_write(&body->pages, text, len, 0);
    return body->name && body->size == len;
}

/* The body comes first, as memory may lack. */
int tree_make(mode_t mode, uid_t owner, gid_t group, uint64_t parent, const char *name, const char *text,
              struct body **made)
{
    struct gb_found found;
    struct body *body = *made = body_new(mode, owner, group);
    if (!body)
        return ENOMEM;
    making_begin();
    int answer = is_ready(body, parent, name, text) ? make_inode(mode, parent, name, text, &found) : GB_NO_MEMORY;
    if (answer == 0)
        body_number(body, found.number);
    else
        body_free(body);
    making_end();
    return changed(MAKE, answer);
}

/* What follows of a change of names for the body, unless it has gone since. The one that took the last name says so, and
 * lets the body end. */
static void count_names(struct body *body, int more, bool gone)
{
    if (!body)
        return;
    pthread_mutex_lock(&body->lock);
    body->names = gone ? 0 : body->names + (nlink_t)more;
    body->changed = now();
    pthread_mutex_unlock(&body->lock);
    body_let_go(body, 1, gone);
}

static int took(enum change change, int answer, const struct gb_gone *gone)
{
    if (answer == 0 && gone->number)
        count_names(body_of(gone->number), -1, gone->last);
    return changed(change, answer);
}

int tree_unlink(uint64_t parent, const char *name)
{
    struct gb_found found;
    struct gb_gone gone;
    int answer = gb_unlink(&gate, pass(), parent, name, strlen(name), &found, &gone);
    return took(REMOVE, answer, &gone);
}

int tree_rmdir(uint64_t parent, const char *name)
{
    struct gb_found found;
    struct gb_gone gone;
    int answer = gb_rmdir(&gate, pass(), parent, name, strlen(name), &found, &gone);
    return took(REMOVE, answer, &gone);
}

static int rename_names(uint64_t old_parent, const char *old_name, uint64_t parent, const char *name, unsigned flags)
{
    struct way way;
    struct gb_found found;
    struct gb_gone gone;
    int answer = way_find(&way, old_parent, old_name, parent, name);
    if (answer != 0)
        return answer;
    answer = gb_rename(&gate, pass(), way.base, way.old_path, strlen(way.old_path), way.path, strlen(way.path), flags,
                       &found, &gone);
    return took(RENAME, answer, &gone);
}

/* The kernel keeps both directories as they are meanwhile, and so what the two names lead to. */
static int rename_bodies(uint64_t old_parent, const char *old_name, uint64_t parent, const char *name, unsigned flags)
{
    struct body *moved, *other = NULL;
    int answer = look_body(old_parent, old_name, &moved);
    if (answer != 0)
        return answer;
    if (flags & GB_EXCHANGE)
        look_body(parent, name, &other);
    answer = rename_names(old_parent, old_name, parent, name, flags);
    if (answer == 0)
        remember(moved, parent, name);
    if (answer == 0 && other)
        remember(other, old_parent, old_name);
    body_let_go(moved, 1, false);
    if (other)
        body_let_go(other, 1, false);
    return answer;
}

int tree_rename(uint64_t old_parent, const char *old_name, uint64_t parent, const char *name, unsigned flags)
{
    pthread_mutex_lock(&moving);
    int answer = rename_bodies(old_parent, old_name, parent, name, flags);
    pthread_mutex_unlock(&moving);
    return answer;
}

/* The name by which a body was found last. */
static uint64_t name_of(struct body *body, char *name)
{
    pthread_mutex_lock(&body->lock);
    uint64_t parent = body->parent;
    strcpy(name, body->name ? body->name : "");
    pthread_mutex_unlock(&body->lock);
    return parent;
}

/* The kernel asks for the text by the link's number, and the library by a name. The rows say, without the lock, whether
 * the name leads to that link, and at which point. A text that was read at the same point was read from the same tree,
 * and so it is that link's. */
static bool is_read(struct body *body, char *text)
{
    struct gb_found link, read;
    char name[LONGEST_NAME + 1];
    uint64_t parent = name_of(body, name);
    size_t len = strlen(name);
    if (gb_readlink_fast(pass(), parent, name, len, &link) != 0 || link.number != body->number)
        return false;
    if (gb_readlink(&gate, pass(), parent, name, len, text, LONGEST_PATH, &read) != 0 || read.at != link.at)
        return false;
    text[read.count] = 0;
    return true;
}

void tree_readlink(struct body *body, char *text)
{
    if (is_read(body, text)) {
        atomic_fetch_add(&texts, 1);
        return;
    }
    atomic_fetch_add(&copies, 1);
    pages_read(&body->pages, text, (size_t)body->size, 0);
    text[body->size] = 0;
}

/* The kernel names an inode, the library wants one of its names: the one by which it was found last. If that has gone
 * meanwhile, ESTALE makes the kernel look its path up again, and ask once more. If it leads elsewhere now, that is what
 * gets the name, as by a link that comes later. */
static int link_name(struct body *body, uint64_t parent, const char *name, struct gb_found *found)
{
    struct way way;
    char old_name[LONGEST_NAME + 1];
    uint64_t old_parent = name_of(body, old_name);
    int answer = way_find(&way, old_parent, old_name, parent, name);
    if (answer != 0)
        return answer;
    answer = gb_link(&gate, pass(), way.base, way.old_path, strlen(way.old_path), way.path, strlen(way.path), found);
    return answer == ENOENT || answer == ENOTDIR || answer == EPERM ? ESTALE : changed(LINK, answer);
}

int tree_link(uint64_t number, uint64_t parent, const char *name, struct body **linked)
{
    struct gb_found found;
    struct body *body = body_of(number);
    if (!body)
        return ESTALE;
    pthread_mutex_lock(&moving);
    int answer = link_name(body, parent, name, &found);
    pthread_mutex_unlock(&moving);
    body_let_go(body, 1, false);
    if (answer != 0)
        return answer;
    count_names(body_of(found.number), 1, false);
    *linked = body_of(found.number);
    return *linked ? 0 : ESTALE;
}

int tree_page(uint64_t directory, const char *after, struct gb_entry *entries, size_t room, size_t *count)
{
    struct gb_found found;
    int answer = gb_entries(&gate, pass(), directory, ".", 1, after, strlen(after), entries, room, &found);
    *count = answer == 0 ? found.count : 0;
    if (answer == 0) {
        atomic_fetch_add(&pages, 1);
        atomic_fetch_add(&listed, (long)found.count);
    }
    return told(answer);
}

struct body *tree_listed(uint64_t directory, const struct gb_entry *entry)
{
    struct body *body = body_of(entry->number);
    if (body && entry->kind != GB_DIR)
        remember(body, directory, entry->name);
    return body;
}

uint64_t tree_above(uint64_t directory)
{
    struct body *body = directory == GB_ROOT ? NULL : body_of(directory);
    if (!body)
        return directory;
    pthread_mutex_lock(&body->lock);
    uint64_t above = body->parent;
    pthread_mutex_unlock(&body->lock);
    body_let_go(body, 1, false);
    return above;
}

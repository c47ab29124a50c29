/* Open directories. A reply has the entries of one page, which is read within that request. The kernel lets no name of the
 * directory change while it asks, so it may keep what is listed with attributes: it changes what it kept by itself later.
 * Entries of an earlier page may lead elsewhere by now, and so none is listed.
 *
 * An entry's offset has its place in the reply, and a mark of its name. An open directory keeps the names of the last reply,
 * by which the kernel goes on: behind a name, whether that stands there still or not. If a program seeks further back, the
 * names are read from the first on, up to the one that has the mark.
 */
#define FUSE_USE_VERSION 31
#include "listings.h"
#include "attributes.h"
#include "modes.h"
#include "tree.h"
#include <errno.h>
#include <gigbewu.h>
#include <stdlib.h>
#include <string.h>

/* Behind dot the offset is 1, behind dot-dot 2. Behind a name it has the place, of 1 and more, above the mark. */
enum { MARK_BITS = 54 };

/* For how long the kernel may keep what it was told with attributes. Who lists a directory asks for its files next. */
static const double KEPT_SECONDS = 1;

/* The kernel lets one thread at a time read an open directory. */
struct listing {
    size_t count;
    char *names; /* of the last reply, each with a zero byte behind it */
};

static struct listing *listing_in(const struct fuse_file_info *file)
{
    return (struct listing *)(uintptr_t)file->fh;
}

static void free_listing(struct listing *listing)
{
    free(listing->names);
    free(listing);
}

void fs_opendir(fuse_req_t request, fuse_ino_t number, struct fuse_file_info *file)
{
    int answer = modes_open(request, number, O_RDONLY);
    struct listing *listing = answer == 0 ? calloc(1, sizeof *listing) : NULL;
    if (!listing) {
        fuse_reply_err(request, answer != 0 ? answer : ENOMEM);
        return;
    }
    file->fh = (uintptr_t)listing;
    if (fuse_reply_open(request, file) != 0)
        free_listing(listing);
}

void fs_releasedir(fuse_req_t request, fuse_ino_t number, struct fuse_file_info *file)
{
    (void)number;
    free_listing(listing_in(file));
    fuse_reply_err(request, 0);
}

/* The highest bits of the FNV-1a hash. Whoever makes names with one mark meets the wrong one if he seeks it. */
static uint64_t mark_of(const char *name)
{
    uint64_t hash = 0xcbf29ce484222325;
    for (; *name; name++)
        hash = (hash ^ (unsigned char)*name) * 0x100000001b3;
    return hash >> (64 - MARK_BITS);
}

/* Two names in one reply have two offsets, whatever their marks. */
static off_t offset_of(size_t place, const char *name)
{
    return (off_t)((uint64_t)(place + 1) << MARK_BITS | mark_of(name));
}

/* The name of the last reply that has an offset, or NULL. */
static const char *name_told(const struct listing *listing, off_t offset)
{
    const char *name = listing->names;
    for (size_t i = 0; i < listing->count; i++) {
        if (offset_of(i, name) == offset)
            return name;
        name += strlen(name) + 1;
    }
    return NULL;
}

/* The name that has the mark of an offset. If there is none any more, the empty name: rather than leave a name out, the
 * listing begins anew. */
static int name_sought(uint64_t directory, off_t offset, char *name)
{
    struct gb_entry page[TREE_PAGE];
    uint64_t mark = (uint64_t)offset & (((uint64_t)1 << MARK_BITS) - 1);
    size_t count = TREE_PAGE;
    *name = 0;
    while (count == TREE_PAGE) {
        int answer = tree_page(directory, name, page, TREE_PAGE, &count);
        if (answer != 0)
            return answer;
        for (size_t i = 0; i < count; i++) {
            strcpy(name, page[i].name);
            if (mark_of(name) == mark)
                return 0;
        }
    }
    *name = 0;
    return 0;
}

/* The name behind which an offset leads on: the empty one before all names. */
static int name_before(const struct listing *listing, uint64_t directory, off_t offset, char *name)
{
    const char *told = offset > 2 ? name_told(listing, offset) : "";
    if (!told)
        return name_sought(directory, offset, name);
    strcpy(name, told);
    return 0;
}

/* A reply, and how much room it still has. */
struct reply {
    fuse_req_t request;
    char *bytes;
    size_t size, used;
    bool plus;                      /* with attributes */
    struct body *bodies[TREE_PAGE]; /* of which the kernel is told, each with a use */
    size_t told;
};

/* How much room an entry with a name takes: the least that there is is that of one letter. */
static size_t room_of(const struct reply *reply, const char *name)
{
    return reply->plus ? fuse_add_direntry_plus(reply->request, NULL, 0, name, NULL, 0)
                       : fuse_add_direntry(reply->request, NULL, 0, name, NULL, 0);
}

/* Whether there was room for it. */
static bool add(struct reply *reply, const char *name, const struct fuse_entry_param *entry, off_t behind)
{
    size_t takes = room_of(reply, name), left = reply->size - reply->used;
    if (takes > left)
        return false;
    char *bytes = reply->bytes + reply->used;
    if (reply->plus)
        fuse_add_direntry_plus(reply->request, bytes, left, name, entry, behind);
    else
        fuse_add_direntry(reply->request, bytes, left, name, &entry->attr, behind);
    reply->used += takes;
    return true;
}

/* Dot and dot-dot have a number and a kind. The kernel is told of no inode there. */
static bool add_dots(struct reply *reply, uint64_t number, off_t from)
{
    struct fuse_entry_param entry = {.attr = {.st_ino = number, .st_mode = S_IFDIR}};
    if (from == 0 && !add(reply, ".", &entry, 1))
        return false;
    entry.attr.st_ino = tree_above(number);
    return from >= 2 || add(reply, "..", &entry, 2);
}

static mode_t kind_of(const struct gb_entry *entry)
{
    return entry->kind == GB_DIR ? S_IFDIR : entry->kind == GB_LINK ? S_IFLNK : S_IFREG;
}

/* As add, with all that a look-up would tell, for as long as the kernel may keep it. */
static bool add_body(struct reply *reply, const char *name, struct body *body, off_t behind)
{
    struct fuse_entry_param entry = entry_of(body);
    entry.attr_timeout = entry.entry_timeout = KEPT_SECONDS;
    if (!add(reply, name, &entry, behind)) {
        body_let_go(body, 1, false);
        return false;
    }
    reply->bodies[reply->told++] = body;
    return true;
}

/* An inode that has lost its last name since the page was read has no body. */
static bool add_entry(struct reply *reply, const struct gb_entry *from, uint64_t directory, off_t behind)
{
    struct fuse_entry_param entry = {.attr = {.st_ino = from->number, .st_mode = kind_of(from)}};
    struct body *body = reply->plus ? tree_listed(directory, from) : NULL;
    return body ? add_body(reply, from->name, body, behind) : add(reply, from->name, &entry, behind);
}

/* Keeps what was told in place of what was told before. The end of a directory is told without a name, and changes
 * nothing. */
static void keep_names(struct listing *listing, char *names, size_t count, size_t size)
{
    if (count == 0) {
        free(names);
        return;
    }
    char *fewer = realloc(names, size);
    free(listing->names);
    listing->names = fewer ? fewer : names;
    listing->count = count;
}

/* Adds the entries of a page as far as there is room. `names` has the room of the reply, in which each takes more. */
static void add_page(struct reply *reply, struct listing *listing, uint64_t directory, const struct gb_entry *page,
                     size_t count, char *names)
{
    size_t told = 0, size = 0;
    for (; told < count; told++) {
        if (!add_entry(reply, &page[told], directory, offset_of(told, page[told].name)))
            break;
        strcpy(names + size, page[told].name);
        size += page[told].length + 1;
    }
    keep_names(listing, names, told, size);
}

/* Answers 0, or a number of errno, and then nothing was told. */
static int fill(struct reply *reply, struct listing *listing, uint64_t directory, off_t from, char *names)
{
    char name[LONGEST_NAME + 1];
    struct gb_entry page[TREE_PAGE];
    size_t most = reply->size / room_of(reply, "n"), count;
    int answer = name_before(listing, directory, from, name);
    if (answer == 0)
        answer = tree_page(directory, name, page, most < TREE_PAGE ? most : TREE_PAGE, &count);
    if (answer != 0)
        return answer;
    bool has_room = from > 2 || add_dots(reply, directory, from);
    add_page(reply, listing, directory, page, has_room ? count : 0, names);
    return 0;
}

/* If the kernel doesn't get the reply, it knows of none of its bodies. */
static void send(struct reply *reply)
{
    if (fuse_reply_buf(reply->request, reply->bytes, reply->used) == 0)
        return;
    for (size_t i = 0; i < reply->told; i++)
        body_let_go(reply->bodies[i], 1, false);
}

static void read_directory(fuse_req_t request, uint64_t number, size_t size, off_t from, struct fuse_file_info *file,
                           bool plus)
{
    struct reply reply = {.request = request, .bytes = malloc(size), .size = size, .plus = plus};
    char *names = malloc(size);
    int answer = reply.bytes && names ? fill(&reply, listing_in(file), number, from, names) : ENOMEM;
    if (answer == 0) {
        send(&reply);
    } else {
        free(names);
        fuse_reply_err(request, answer);
    }
    free(reply.bytes);
}

void fs_readdir(fuse_req_t request, fuse_ino_t number, size_t size, off_t from, struct fuse_file_info *file)
{
    read_directory(request, number, size, from, file, false);
}

void fs_readdirplus(fuse_req_t request, fuse_ino_t number, size_t size, off_t from, struct fuse_file_info *file)
{
    read_directory(request, number, size, from, file, true);
}

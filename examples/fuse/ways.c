#include "ways.h"
#include <errno.h>
#include <gigbewu.h>
#include <string.h>

/* A path that is written from its end. */
struct climb {
    uint64_t directory; /* which it starts in */
    char *room, *text;
};

static int begin(struct climb *climb, uint64_t directory, const char *name, char *room)
{
    size_t len = strlen(name);
    if (len > LONGEST_NAME)
        return ENAMETOOLONG;
    climb->directory = directory;
    climb->room = room;
    climb->text = room + LONGEST_PATH - len;
    memcpy(climb->text, name, len + 1);
    return 0;
}

/* Puts the directory's name before the path, which then starts in the one above. */
static int put_name(struct climb *climb, const struct body *body)
{
    if (!body->name)
        return ESTALE;
    size_t len = strlen(body->name);
    if (len + 1 > (size_t)(climb->text - climb->room))
        return ENAMETOOLONG;
    *--climb->text = '/';
    climb->text -= len;
    memcpy(climb->text, body->name, len);
    climb->directory = body->parent;
    return 0;
}

static int climb_on(struct climb *climb)
{
    struct body *body = body_of(climb->directory);
    if (!body)
        return ESTALE;
    int answer = put_name(climb, body);
    body_let_go(body, 1, false);
    return answer;
}

/* How many directories stand above one. */
static int depth_of(uint64_t directory, size_t *depth)
{
    for (*depth = 0; directory != GB_ROOT; ++*depth) {
        struct body *body = body_of(directory);
        if (!body)
            return ESTALE;
        directory = body->parent;
        body_let_go(body, 1, false);
    }
    return 0;
}

/* The deeper one climbs, until both are in one directory. */
static int meet(struct climb *old, struct climb *new)
{
    size_t old_depth, depth;
    int answer = depth_of(old->directory, &old_depth);
    if (answer == 0)
        answer = depth_of(new->directory, &depth);
    while (answer == 0 && old->directory != new->directory) {
        int is_old = old_depth >= depth;
        answer = climb_on(is_old ? old : new);
        old_depth -= is_old;
        depth -= !is_old;
    }
    return answer;
}

int way_find(struct way *way, uint64_t old_parent, const char *old_name, uint64_t parent, const char *name)
{
    struct climb old, new;
    int answer = begin(&old, old_parent, old_name, way->old_room);
    if (answer == 0)
        answer = begin(&new, parent, name, way->room);
    if (answer == 0 && old_parent != parent)
        answer = meet(&old, &new);
    if (answer != 0)
        return answer;
    way->base = old.directory;
    way->old_path = old.text;
    way->path = new.text;
    return 0;
}

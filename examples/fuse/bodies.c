/* Bodies of inodes, on shelves by their numbers. No call of the library is made here. */
#include "bodies.h"
#include <sched.h>
#include <stdatomic.h>
#include <stdlib.h>
#include <sys/random.h>

enum { SHELF_BITS = 12, SHELVES = 1 << SHELF_BITS };

/* Bodies whose numbers have the same product with the secret, in its highest bits. */
struct shelf {
    pthread_mutex_t lock;
    struct body *first;
};

static struct shelf shelves[SHELVES];
/* Whoever makes and unlinks files chooses which numbers stay. Without a secret all could be made to stand on one shelf. */
static uint64_t secret;
static atomic_long bodies;
/* Calls that may have made an inode whose body has no number yet. */
static atomic_long making;

void bodies_begin(void)
{
    if (getrandom(&secret, sizeof secret, 0) != sizeof secret)
        secret = (uint64_t)now().tv_nsec;
    secret |= 1;
    for (size_t i = 0; i < SHELVES; i++)
        pthread_mutex_init(&shelves[i].lock, NULL);
}

long bodies_count(void)
{
    return atomic_load(&bodies);
}

struct timespec now(void)
{
    struct timespec time;
    clock_gettime(CLOCK_REALTIME, &time);
    return time;
}

struct body *body_new(mode_t mode, uid_t owner, gid_t group)
{
    struct body *body = calloc(1, sizeof *body);
    if (!body)
        return NULL;
    pthread_mutex_init(&body->lock, NULL);
    body->mode = mode;
    body->owner = owner;
    body->group = group;
    body->names = body->users = 1;
    body->read = body->written = body->changed = now();
    atomic_fetch_add(&bodies, 1);
    return body;
}

void body_free(struct body *body)
{
    pthread_mutex_destroy(&body->lock);
    pages_cut(&body->pages, 0);
    free(body->name);
    free(body);
    atomic_fetch_sub(&bodies, 1);
}

static struct shelf *shelf_of(uint64_t number)
{
    return &shelves[number * secret >> (64 - SHELF_BITS)];
}

void body_number(struct body *body, uint64_t number)
{
    struct shelf *shelf = shelf_of(number);
    body->number = number;
    pthread_mutex_lock(&shelf->lock);
    body->next = shelf->first;
    shelf->first = body;
    pthread_mutex_unlock(&shelf->lock);
}

void making_begin(void)
{
    atomic_fetch_add(&making, 1);
}

void making_end(void)
{
    atomic_fetch_sub(&making, 1);
}

static struct body *on_shelf(uint64_t number)
{
    struct shelf *shelf = shelf_of(number);
    struct body *body;
    pthread_mutex_lock(&shelf->lock);
    for (body = shelf->first; body && body->number != number; body = body->next)
        ;
    if (body)
        body->users++;
    pthread_mutex_unlock(&shelf->lock);
    return body;
}

/* A number may be told of before its body has it. Its maker counts itself before the library makes the inode, and until
 * the body stands: so if nobody was making one, and that is asked before the shelf, a missing body has gone. */
struct body *body_of(uint64_t number)
{
    for (;;) {
        bool settled = atomic_load(&making) == 0;
        struct body *body = on_shelf(number);
        if (body || settled)
            return body;
        sched_yield();
    }
}

void body_keep(struct body *body)
{
    struct shelf *shelf = shelf_of(body->number);
    pthread_mutex_lock(&shelf->lock);
    body->users++;
    pthread_mutex_unlock(&shelf->lock);
}

void body_let_go(struct body *body, uint64_t uses, bool gone)
{
    struct shelf *shelf = shelf_of(body->number);
    struct body **at = &shelf->first;
    pthread_mutex_lock(&shelf->lock);
    body->gone |= gone;
    body->users -= uses;
    bool ended = body->users == 0 && body->gone;
    while (ended && *at != body)
        at = &(*at)->next;
    if (ended)
        *at = body->next;
    pthread_mutex_unlock(&shelf->lock);
    if (ended)
        body_free(body);
}

void body_resize(struct body *body, uint64_t size)
{
    if (size < body->size)
        pages_cut(&body->pages, size);
    body->size = size;
    body->written = now();
}

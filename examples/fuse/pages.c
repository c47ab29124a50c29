/* A file's pages are the leaves of a tree, as deep as its last page needs. */
#include "pages.h"
#include <stdatomic.h>
#include <stdlib.h>
#include <string.h>

/* A node has the size of a page. */
enum { BITS = 9, BRANCHES = 1 << BITS };

static uint64_t most;
static _Atomic uint64_t used;

void pages_limit(uint64_t given)
{
    most = given;
}

uint64_t pages_most(void)
{
    return most;
}

uint64_t pages_used(void)
{
    return atomic_load(&used);
}

static void *block_new(struct pages *pages)
{
    void *block = NULL;
    if (atomic_fetch_add(&used, 1) < most)
        block = calloc(1, PAGE);
    if (block)
        pages->blocks++;
    else
        atomic_fetch_sub(&used, 1);
    return block;
}

static void block_free(struct pages *pages, void **at)
{
    free(*at);
    *at = NULL;
    pages->blocks--;
    atomic_fetch_sub(&used, 1);
}

/* How many pages stand below a slot at this level. */
static uint64_t pages_below(unsigned level)
{
    return (uint64_t)1 << BITS * level;
}

/* A page, or NULL for a hole. */
static char *page_at(const struct pages *pages, uint64_t page)
{
    void *block = page < pages_below(pages->levels) ? pages->top : NULL;
    for (unsigned level = pages->levels; level > 0 && block; level--)
        block = ((void **)block)[page / pages_below(level - 1) % BRANCHES];
    return block;
}

/* Makes the tree as deep as a page needs. */
static int deepen(struct pages *pages, uint64_t page)
{
    while (page >= pages_below(pages->levels)) {
        if (pages->top) {
            void **node = block_new(pages);
            if (!node)
                return 0;
            node[0] = pages->top;
            pages->top = node;
        }
        pages->levels++;
    }
    return 1;
}

/* A page, which is made if it is a hole; NULL if there is no room. */
static char *page_made(struct pages *pages, uint64_t page)
{
    if (!deepen(pages, page))
        return NULL;
    void **at = &pages->top;
    for (unsigned level = pages->levels;; level--) {
        if (!*at && !(*at = block_new(pages)))
            return NULL;
        if (level == 0)
            return *at;
        at = (void **)*at + page / pages_below(level - 1) % BRANCHES;
    }
}

/* How many of this many bytes stand in the page of the first. */
static size_t in_page(uint64_t at, size_t count)
{
    size_t left = PAGE - at % PAGE;
    return count < left ? count : left;
}

void pages_read(const struct pages *pages, char *to, size_t count, uint64_t from)
{
    while (count > 0) {
        size_t some = in_page(from, count);
        const char *page = page_at(pages, from / PAGE);
        if (page)
            memcpy(to, page + from % PAGE, some);
        else
            memset(to, 0, some);
        to += some;
        from += some;
        count -= some;
    }
}

size_t pages_write(struct pages *pages, const char *bytes, size_t count, uint64_t at)
{
    size_t written = 0;
    while (written < count) {
        size_t some = in_page(at, count - written);
        char *page = page_made(pages, at / PAGE);
        if (!page)
            break;
        memcpy(page + at % PAGE, bytes + written, some);
        at += some;
        written += some;
    }
    return written;
}

/* Frees the pages below a slot from one of them on. */
static void cut_slot(struct pages *pages, void **at, unsigned level, uint64_t from)
{
    if (!*at || from >= pages_below(level))
        return;
    for (uint64_t i = level > 0 ? from / pages_below(level - 1) : BRANCHES; i < BRANCHES; i++) {
        uint64_t before = i * pages_below(level - 1);
        cut_slot(pages, (void **)*at + i, level - 1, from > before ? from - before : 0);
    }
    if (from == 0)
        block_free(pages, at);
}

/* The rest of the last page is zeros again, as a file that grows has zeros there. */
void pages_cut(struct pages *pages, uint64_t size)
{
    char *last = size % PAGE > 0 ? page_at(pages, size / PAGE) : NULL;
    if (last)
        memset(last + size % PAGE, 0, PAGE - size % PAGE);
    cut_slot(pages, &pages->top, pages->levels, size / PAGE + (size % PAGE > 0));
    if (!pages->top)
        pages->levels = 0;
}

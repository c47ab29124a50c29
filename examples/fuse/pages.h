/* The bytes of files, by pages. What was never written is a hole: it takes no memory, and is read as zeros. What is cut
 * off is given back. All files together have a limit.
 */
#ifndef PAGES_H
#define PAGES_H
#include <stddef.h>
#include <stdint.h>

enum { PAGE = 4096 };

/* A file's pages. Zeros are a file without any. One thread at a time works on it. */
struct pages {
    void *top;       /* a page, or a node that has pages or nodes below it */
    unsigned levels; /* how many nodes stand above a page */
    uint64_t blocks; /* how many pages and nodes it takes */
};

/* How many pages and nodes all files together may take: once, before all else. How many they may take, and take. */
void pages_limit(uint64_t most);
uint64_t pages_most(void);
uint64_t pages_used(void);

void pages_read(const struct pages *pages, char *to, size_t count, uint64_t from);

/* Answers how many bytes were written: fewer if memory or the limit doesn't allow more. */
size_t pages_write(struct pages *pages, const char *bytes, size_t count, uint64_t at);

/* Cuts off what is behind this many bytes. */
void pages_cut(struct pages *pages, uint64_t size);

#endif

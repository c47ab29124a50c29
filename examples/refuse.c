/* Refuses one allocation of a program, the Nth that its own code asks for: N is the environment's REFUSED. What the C
 * library takes for itself isn't counted. It is a library for LD_PRELOAD (examples/refusals).
 */
#define _GNU_SOURCE
#include <errno.h>
#include <link.h>
#include <stdatomic.h>
#include <stdint.h>
#include <stdlib.h>

void *__libc_malloc(size_t size);
void *__libc_realloc(void *old, size_t size);

/* Where the program's own code stands. */
static uintptr_t first = UINTPTR_MAX, last;
static atomic_long asked;
static long refused = -1;

static int note(struct dl_phdr_info *info, size_t size, void *data)
{
    (void)size, (void)data;
    for (int i = 0; i < info->dlpi_phnum; i++) {
        uintptr_t from = info->dlpi_addr + info->dlpi_phdr[i].p_vaddr;
        uintptr_t to = from + info->dlpi_phdr[i].p_memsz;
        if (info->dlpi_phdr[i].p_type != PT_LOAD)
            continue;
        first = from < first ? from : first;
        last = to > last ? to : last;
    }
    /* The first is the program, the others are its libraries. */
    return 1;
}

__attribute__((constructor)) static void begin(void)
{
    const char *number = getenv("REFUSED");
    dl_iterate_phdr(note, NULL);
    refused = number ? atol(number) : -1;
}

static int is_refused(void *caller)
{
    uintptr_t at = (uintptr_t)caller;
    if (at < first || at >= last || atomic_fetch_add(&asked, 1) + 1 != refused)
        return 0;
    errno = ENOMEM;
    return 1;
}

void *malloc(size_t size)
{
    return is_refused(__builtin_return_address(0)) ? NULL : __libc_malloc(size);
}

void *realloc(void *old, size_t size)
{
    return is_refused(__builtin_return_address(0)) ? NULL : __libc_realloc(old, size);
}

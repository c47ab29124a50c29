/* For builds with ThreadSanitizer alone. What one thread does to a block inside the library, and another does to it later,
 * is ordered by the library's lock and rows, which the sanitizer doesn't see: where both call the C library, it would call
 * that a race. So it is to see nothing of these calls. Linked with --wrap of each function below.
 */
#include <stddef.h>

void AnnotateIgnoreReadsBegin(const char *file, int line);
void AnnotateIgnoreReadsEnd(const char *file, int line);
void AnnotateIgnoreWritesBegin(const char *file, int line);
void AnnotateIgnoreWritesEnd(const char *file, int line);
void *__real_malloc(size_t size);
void *__real_realloc(void *old, size_t size);
void __real_free(void *block);
void *__real_memcpy(void *to, const void *from, size_t size);
void *__real_memmove(void *to, const void *from, size_t size);
void *__real_memset(void *to, int byte, size_t size);
int __real_memcmp(const void *one, const void *other, size_t size);
int __real_bcmp(const void *one, const void *other, size_t size);
void *__wrap_malloc(size_t size);
void *__wrap_realloc(void *old, size_t size);
void __wrap_free(void *block);
void *__wrap_memcpy(void *to, const void *from, size_t size);
void *__wrap_memmove(void *to, const void *from, size_t size);
void *__wrap_memset(void *to, int byte, size_t size);
int __wrap_memcmp(const void *one, const void *other, size_t size);
int __wrap_bcmp(const void *one, const void *other, size_t size);

static void begin(void)
{
    AnnotateIgnoreReadsBegin(__FILE__, __LINE__);
    AnnotateIgnoreWritesBegin(__FILE__, __LINE__);
}

static void end(void)
{
    AnnotateIgnoreWritesEnd(__FILE__, __LINE__);
    AnnotateIgnoreReadsEnd(__FILE__, __LINE__);
}

static void *ended(void *block)
{
    end();
    return block;
}

static int ended_with(int order)
{
    end();
    return order;
}

void *__wrap_malloc(size_t size)
{
    begin();
    return ended(__real_malloc(size));
}

void *__wrap_realloc(void *old, size_t size)
{
    begin();
    return ended(__real_realloc(old, size));
}

void __wrap_free(void *block)
{
    begin();
    __real_free(block);
    end();
}

void *__wrap_memcpy(void *to, const void *from, size_t size)
{
    begin();
    return ended(__real_memcpy(to, from, size));
}

void *__wrap_memmove(void *to, const void *from, size_t size)
{
    begin();
    return ended(__real_memmove(to, from, size));
}

void *__wrap_memset(void *to, int byte, size_t size)
{
    begin();
    return ended(__real_memset(to, byte, size));
}

int __wrap_memcmp(const void *one, const void *other, size_t size)
{
    begin();
    return ended_with(__real_memcmp(one, other, size));
}

int __wrap_bcmp(const void *one, const void *other, size_t size)
{
    begin();
    return ended_with(__real_bcmp(one, other, size));
}

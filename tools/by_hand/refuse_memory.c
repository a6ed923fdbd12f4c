/* Put in front of the C library by LD_PRELOAD: refuses one request for memory, the one whose number REFUSE names, counted
 * from 1, and says so by an empty file at the path REFUSE_TOLD. tools/by_hand/try_memory builds and uses it. */
#include <errno.h>
#include <fcntl.h>
#include <stdatomic.h>
#include <stddef.h>
#include <stdlib.h>
#include <unistd.h>

extern void *__libc_malloc(size_t size);
extern void *__libc_calloc(size_t count, size_t size);
extern void *__libc_realloc(void *old, size_t size);
extern void *__libc_memalign(size_t alignment, size_t size);

static atomic_long requests;

static int is_refused(void)
{
    const char *number = getenv("REFUSE");
    if (number == NULL || atomic_fetch_add(&requests, 1) + 1 != atol(number))
        return 0;
    int told = open(getenv("REFUSE_TOLD"), O_CREAT | O_WRONLY, 0644);
    if (told >= 0)
        close(told);
    errno = ENOMEM;
    return 1;
}

void *malloc(size_t size)
{
    return is_refused() ? NULL : __libc_malloc(size);
}

void *calloc(size_t count, size_t size)
{
    return is_refused() ? NULL : __libc_calloc(count, size);
}

void *realloc(void *old, size_t size)
{
    return is_refused() ? NULL : __libc_realloc(old, size);
}

void *memalign(size_t alignment, size_t size)
{
    return is_refused() ? NULL : __libc_memalign(alignment, size);
}

void *aligned_alloc(size_t alignment, size_t size)
{
    return is_refused() ? NULL : __libc_memalign(alignment, size);
}

int posix_memalign(void **at, size_t alignment, size_t size)
{
    if (is_refused())
        return ENOMEM;
    *at = __libc_memalign(alignment, size);
    return *at == NULL ? ENOMEM : 0;
}

/* Refuses one request for memory of a process, which it is preloaded into (LD_PRELOAD): the one whose number, counted
 * from 1, the environment has as REFUSED_REQUEST. Where that request is made, one byte goes to the descriptor
 * REFUSED_REQUEST_TOLD, so that the caller knows that it was reached. All other requests are passed on to the C
 * library. Nothing here takes memory. It isn't safe for threads; the programs under test have one. */
#include <errno.h>
#include <stdlib.h>
#include <unistd.h>

/* The C library's own functions, by the names under which they can't be replaced. */
void *__libc_malloc(size_t size);
void *__libc_calloc(size_t count, size_t size);
void *__libc_realloc(void *block, size_t size);
void *__libc_memalign(size_t alignment, size_t size);

/* How many requests there are up to the refused one; 0 where none is to come. */
static unsigned long left;
static int told;

/* Counting begins where the program does, so that the loader's own requests are granted. */
__attribute__((constructor)) static void begin(void)
{
    const char *request = getenv("REFUSED_REQUEST");
    const char *descriptor = getenv("REFUSED_REQUEST_TOLD");
    if (request && descriptor) {
        told = atoi(descriptor);
        left = strtoul(request, NULL, 10);
    }
}

static int is_refused(void)
{
    if (left == 0 || --left != 0)
        return 0;
    if (write(told, "!", 1) != 1)
        _exit(99);
    errno = ENOMEM;
    return 1;
}

void *malloc(size_t size)
{
    return is_refused() ? NULL : __libc_malloc(size);
}

void *calloc(size_t count, size_t size)
{
    return is_refused() ? NULL : __libc_calloc(count, size);
}

void *realloc(void *block, size_t size)
{
    return is_refused() ? NULL : __libc_realloc(block, size);
}

void *memalign(size_t alignment, size_t size)
{
    return is_refused() ? NULL : __libc_memalign(alignment, size);
}

void *aligned_alloc(size_t alignment, size_t size)
{
    return memalign(alignment, size);
}

int posix_memalign(void **block, size_t alignment, size_t size)
{
    void *got = memalign(alignment, size);
    if (!got)
        return ENOMEM;
    *block = got;
    return 0;
}

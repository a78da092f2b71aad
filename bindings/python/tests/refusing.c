/* Refuses one request for memory of the process that it is preloaded into, by the number that `refuse` was given, and counts the blocks
 * that are in use. All other requests are passed on to the C library. It isn't safe for threads. */
#include <errno.h>
#include <stddef.h>

/* The C library's own functions, by the names under which they can't be replaced. */
void *__libc_malloc(size_t size);
void *__libc_calloc(size_t count, size_t size);
void *__libc_realloc(void *block, size_t size);
void __libc_free(void *block);

static long left, blocks;

/* Has the request of this number be refused, counted from 1 from here on, and returns how many of the last number were left: 0 where that
 * one was refused. */
long refuse(long request)
{
    long before = left;
    left = request;
    return before;
}

long blocks_in_use(void)
{
    return blocks;
}

static int is_refused(void)
{
    if (left == 0 || --left != 0)
        return 0;
    errno = ENOMEM;
    return 1;
}

static void *counted(void *block)
{
    blocks += block != NULL;
    return block;
}

void *malloc(size_t size)
{
    return is_refused() ? NULL : counted(__libc_malloc(size));
}

void *calloc(size_t count, size_t size)
{
    return is_refused() ? NULL : counted(__libc_calloc(count, size));
}

void *realloc(void *block, size_t size)
{
    if (is_refused())
        return NULL;
    void *moved = __libc_realloc(block, size);
    return block ? moved : counted(moved);
}

void free(void *block)
{
    blocks -= block != NULL;
    __libc_free(block);
}

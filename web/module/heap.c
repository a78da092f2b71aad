/* The heap of the page's module, over WebAssembly's memory. It takes the place of the toolchain's functions over malloc, whose
 * contracts it has to meet. Nothing proves that it does; web/tests/module/heap tests it.
 *
 * Small blocks have sizes in steps of an eighth or less. Each size has a list of free blocks, and new ones are cut from chunks.
 * Large blocks are whole grains of 4 KiB. They are cut from free runs, which are kept in the order of their addresses, so that
 * neighbours are joined: a list that grows again and again mostly grows where it is. Where no run is long enough, memory grows. */
#include "memory.h"

enum { UNIT = 16, GRAIN = 4096, CHUNK = 65536, SMALL = 8192, LARGEST_CLASS = 64, LEAST_GROWTH = 1 << 20 };
static const size GREATEST = (size)1 << 40;

/* In front of the bytes of a block; a free one has its place in a list. */
typedef struct Block {
    size bytes; /* of the whole block, this header too */
    struct Block *next;
} Block;
_Static_assert(sizeof(Block) == UNIT, "blocks are aligned to 16 bytes");

static Block *small_blocks[LARGEST_CLASS + 1]; /* free, by class */
static Block *runs;                            /* free, by address */
static char *chunk, *chunk_end;                /* what is left of the last chunk */
static char *end;                              /* of the memory; null before the first block */

static char *end_of(const Block *block) { return (char *)block + block->bytes; }

static size rounded(size n, size step) { return (n + step - 1) / step * step; }

/* The class of a small block. The first sixteen are 1 to 16 units; from then on eight are as far as the next double. */
static unsigned class_of(size bytes) {
    size units = rounded(bytes, UNIT) / UNIT;
    unsigned doubles = units < 16 ? 0 : 60 - (unsigned)__builtin_clzl(units);
    return 8 * doubles + (unsigned)(rounded(units, (size)1 << doubles) >> doubles);
}

static size bytes_of(unsigned class) {
    unsigned doubles = class < 16 ? 0 : class / 8 - 1;
    return UNIT * ((size)(class - 8 * doubles) << doubles);
}

/* The size of the block for so many bytes. */
static size block_for(size n) {
    size bytes = n + sizeof(Block);
    return bytes <= SMALL ? bytes_of(class_of(bytes)) : rounded(bytes, GRAIN);
}

/* The link to the first run that is not before an address. */
static Block **link_at(const char *address) {
    Block **link = &runs;
    while (*link && (char *)*link < address)
        link = &(*link)->next;
    return link;
}

static void join_next(Block *run) {
    if (run->next && end_of(run) == (char *)run->next) {
        run->bytes += run->next->bytes;
        run->next = run->next->next;
    }
}

/* Puts whole grains among the free runs. */
static void give(char *start, size bytes) {
    Block *run = (Block *)start, **link = &runs, *before = 0;
    while (*link && *link < run) {
        before = *link;
        link = &before->next;
    }
    run->bytes = bytes;
    run->next = *link;
    *link = run;
    join_next(run);
    if (before) join_next(before);
}

/* Takes so many bytes off the front of a run that has them. */
static Block *cut(Block **link, size bytes) {
    Block *run = *link, *rest = run->next;
    if (run->bytes > bytes) {
        rest = (Block *)((char *)run + bytes);
        rest->bytes = run->bytes - bytes;
        rest->next = run->next;
    }
    *link = rest;
    run->bytes = bytes;
    return run;
}

static int grow(size bytes) {
    if (!grow_memory(bytes / PAGE)) return 0;
    char *start = end;
    end += bytes;
    give(start, bytes);
    return 1;
}

/* Has a run of at least so many bytes at the end of memory, or refuses. */
static int extend(size bytes) {
    Block *last = runs;
    while (last && last->next)
        last = last->next;
    size has = last && end_of(last) == end ? last->bytes : 0;
    size wants = rounded(bytes - has, PAGE);
    return (wants < LEAST_GROWTH && grow(LEAST_GROWTH)) || grow(wants);
}

static void begin(void) {
    char *start = (char *)rounded((size)heap_start(), GRAIN);
    end = (char *)(memory_pages() * PAGE);
    if (start < end) give(start, (size)(end - start));
}

static Block **first_run_of(size bytes) {
    Block **link = &runs;
    while (*link && (*link)->bytes < bytes)
        link = &(*link)->next;
    return link;
}

static Block *take_large(size bytes) {
    if (!end) begin();
    Block **link = first_run_of(bytes);
    if (!*link) {
        if (!extend(bytes)) return 0;
        link = first_run_of(bytes);
    }
    return cut(link, bytes);
}

static Block *take_small(size bytes) {
    Block **list = &small_blocks[class_of(bytes)], *block = *list;
    if (block) {
        *list = block->next;
        return block;
    }
    if ((size)(chunk_end - chunk) < bytes) {
        Block *fresh = take_large(CHUNK);
        if (!fresh) return 0;
        chunk = (char *)fresh;
        chunk_end = chunk + CHUNK;
    }
    block = (Block *)chunk;
    chunk += bytes;
    block->bytes = bytes;
    return block;
}

/* Makes a large block longer where it is, if what comes after it is free. */
static int widen(Block *block, size bytes) {
    size more = bytes - block->bytes;
    Block **link = link_at(end_of(block));
    size free_after = (char *)*link == end_of(block) ? (*link)->bytes : 0;
    if (free_after < more) {
        if (end_of(block) + free_after != end || !extend(more)) return 0;
        link = link_at(end_of(block));
    }
    cut(link, more);
    block->bytes = bytes;
    return 1;
}

/* Whether a block could be made one of so many bytes where it is. */
static int fits(Block *block, size bytes) {
    if (bytes == block->bytes) return 1;
    if (bytes <= SMALL || block->bytes <= SMALL) return 0;
    if (bytes > block->bytes) return widen(block, bytes);
    size rest = block->bytes - bytes;
    block->bytes = bytes;
    give(end_of(block), rest);
    return 1;
}

void heap_forget(void) {
    __builtin_memset(small_blocks, 0, sizeof small_blocks);
    runs = 0;
    chunk = chunk_end = end = 0;
}

void *heap_take(size n) {
    if (n > GREATEST) return 0;
    size bytes = block_for(n);
    Block *block = bytes <= SMALL ? take_small(bytes) : take_large(bytes);
    return block ? block + 1 : 0;
}

void heap_give(void *p) {
    Block *block = (Block *)p - 1;
    if (block->bytes > SMALL) {
        give((char *)block, block->bytes);
        return;
    }
    Block **list = &small_blocks[class_of(block->bytes)];
    block->next = *list;
    *list = block;
}

void *heap_resize(void *p, size n) {
    if (n > GREATEST) return 0;
    Block *block = (Block *)p - 1;
    if (fits(block, block_for(n))) return p;
    void *moved = heap_take(n);
    if (!moved) return 0;
    size has = block->bytes - sizeof(Block);
    __builtin_memcpy(moved, p, n < has ? n : has);
    heap_give(p);
    return moved;
}

/* What heap.c has of the memory below it, and what it gives. The tests put another memory in its place. */
#ifndef MEMORY_H
#define MEMORY_H

typedef unsigned long size;
_Static_assert(sizeof(size) == 8 && sizeof(void *) == 8, "addresses have 64 bits, also in the module that is lowered later");

enum { PAGE = 65536 };

/* The first address that the program leaves free. */
char *heap_start(void);
size memory_pages(void);
/* Whether the memory could be made longer by so many pages. */
int grow_memory(size pages);

/* A block of at least n bytes at an address that 16 divides, or null where memory was refused. */
void *heap_take(size n);
/* The block as one of at least n bytes, with the bytes that both have. It may move. Null where memory was refused: then it is as
 * it was. */
void *heap_resize(void *p, size n);
void heap_give(void *p);
/* Forgets all blocks, so that all memory is free again. */
void heap_forget(void);

#endif

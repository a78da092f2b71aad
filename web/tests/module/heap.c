/* Tests web/module/heap.c over a memory of its own, which can refuse to grow: heap SEED STEPS. Blocks of random sizes are taken,
 * resized and given back. Each is filled with a number of its own, and has to have it until it is given back, so no two overlap.
 * The last line is 'N passed, M failed'. */
#include "../../module/memory.h"
#include <stdint.h>
#include <stdio.h>
#include <stdlib.h>
#include <sys/mman.h>

enum { BLOCKS = 400, START = 3 * PAGE + 40, GRAIN = 4096 };
static const size GREATEST_MEMORY = (size)65536 * PAGE;

static char *memory;
static size pages, limit;
static int passed, failed, refused;

char *heap_start(void) { return memory + START; }
size memory_pages(void) { return (size)memory / PAGE + pages; }
int grow_memory(size more) {
    if (more > limit - pages) return 0;
    pages += more;
    return 1;
}

static void expect(int holds, const char *what) {
    if (holds)
        passed++;
    else if (failed++ < 10)
        printf("not so: %s\n", what);
}

/* SplitMix64. */
static uint64_t state;
static uint64_t next_number(void) {
    uint64_t z = state += 0x9e3779b97f4a7c15;
    z = (z ^ z >> 30) * 0xbf58476d1ce4e5b9;
    z = (z ^ z >> 27) * 0x94d049bb133111eb;
    return z ^ z >> 31;
}
/* As likely small as large. */
static size random_size(void) { return next_number() & (((size)1 << next_number() % 19) - 1); }

static struct {
    unsigned char *bytes;
    size length;
    unsigned char mark;
} blocks[BLOCKS];

static void fill(int it, size from) {
    for (size i = from; i < blocks[it].length; i++)
        blocks[it].bytes[i] = blocks[it].mark;
}
static int is_filled(int it, size length) {
    for (size i = 0; i < length; i++)
        if (blocks[it].bytes[i] != blocks[it].mark) return 0;
    return 1;
}
static int is_within(const unsigned char *bytes, size length) {
    size from = (size)(bytes - (unsigned char *)memory);
    return (size)bytes % 16 == 0 && from >= START && from + length <= pages * PAGE;
}

static void take(int it) {
    size length = random_size();
    unsigned char *bytes = heap_take(length);
    if (!bytes) {
        refused++;
        return;
    }
    expect(is_within(bytes, length), "a block is within the memory, at a multiple of 16");
    blocks[it].bytes = bytes;
    blocks[it].length = length;
    blocks[it].mark = (unsigned char)next_number();
    fill(it, 0);
}
static void resize(int it) {
    size was = blocks[it].length, length = random_size();
    unsigned char *bytes = heap_resize(blocks[it].bytes, length);
    if (!bytes) {
        refused++;
        expect(is_filled(it, was), "a block that can't be resized is as it was");
        return;
    }
    blocks[it].bytes = bytes;
    blocks[it].length = length;
    expect(is_within(bytes, length), "a resized block is within the memory, at a multiple of 16");
    expect(is_filled(it, was < length ? was : length), "a resized block has its first bytes");
    fill(it, was);
}
static void give(int it) {
    expect(is_filled(it, blocks[it].length), "a block has its bytes until it is given back");
    heap_give(blocks[it].bytes);
    blocks[it].bytes = 0;
}

static void steps(int count) {
    for (; count > 0; count--) {
        int it = (int)(next_number() % BLOCKS);
        if (!blocks[it].bytes)
            take(it);
        else if (next_number() % 2)
            resize(it);
        else
            give(it);
    }
}
static void give_all(void) {
    for (int it = 0; it < BLOCKS; it++)
        if (blocks[it].bytes) give(it);
}

/* What random blocks need is given back: a block of a quarter of that memory then finds its place in it. */
static void test_random_blocks(int count) {
    limit = GREATEST_MEMORY / PAGE;
    steps(count);
    give_all();
    expect(refused == 0, "nothing is refused while memory can grow");
    limit = pages;
    void *quarter = heap_take(pages * PAGE / 4);
    expect(quarter != 0, "large blocks that were given back are joined");
    if (quarter) heap_give(quarter);
}

/* With a quarter of that memory, and no more to have, some steps are refused, and all blocks stay whole. */
static void test_refusal(int count) {
    void *quarter = heap_take(pages * PAGE / 4);
    expect(quarter && !heap_resize(quarter, (size)-1) && !heap_resize(quarter, GREATEST_MEMORY), "what no memory has is refused");
    expect(!heap_take((size)-1) && !heap_take(GREATEST_MEMORY), "what no memory has is refused");
    while (heap_take(PAGE))
        continue;
    if (quarter) heap_give(quarter);
    steps(count);
    give_all();
    expect(refused > 0, "something is refused where memory can't grow");
    heap_forget();
    expect(heap_take((pages - START / PAGE - 1) * PAGE - GRAIN) != 0, "nearly all memory is free where all blocks were forgotten");
    heap_forget();
    steps(count / 10);
    give_all();
    limit = GREATEST_MEMORY / PAGE;
}

/* A list that grows by half and more, with small blocks taken between, takes little more memory than it is long. */
static void test_growing_list(void) {
    size before = pages, length = 1 << 20;
    unsigned char *list = heap_take(length);
    for (; list && length < (size)1 << 28; length *= 2) {
        list = heap_resize(list, length * 2);
        expect(heap_take(100) != 0, "there is a small block");
    }
    expect(list != 0, "a list can grow");
    expect((pages - before) * PAGE <= length + length / 8, "a list that grows does so where it is");
    if (list) heap_give(list);
}

int main(int count, char **words) {
    if (count != 3) return 2;
    state = strtoull(words[1], 0, 10);
    memory = mmap(0, GREATEST_MEMORY + PAGE, PROT_READ | PROT_WRITE, MAP_PRIVATE | MAP_ANONYMOUS | MAP_NORESERVE, -1, 0);
    if (memory == MAP_FAILED) return 2;
    memory = (char *)(((size)memory + PAGE - 1) / PAGE * PAGE);
    pages = 4;
    test_random_blocks(atoi(words[2]));
    test_refusal(atoi(words[2]));
    test_growing_list();
    printf("%d passed, %d failed\n", passed, failed);
    return failed != 0;
}

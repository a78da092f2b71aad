/* What the tests of the library share. It is C and C++. */
#ifndef MVTGATE_TEST_H
#define MVTGATE_TEST_H

#include <mvtgate.h>

#include <stdio.h>
#include <stdlib.h>
#include <string.h>
#include <sys/mman.h>
#include <unistd.h>

/* The functions that write a text, so that a test may go through them by number. */
enum { CALLS = 10 };
static const char *const call_names[CALLS] = {
    "check polygon",          "check feature",          "dump",           "advise",
    "check_quickly polygon",  "check_quickly feature",  "faults polygon", "faults feature",
    "faults_quickly polygon", "faults_quickly feature",
};

/* The profile of a call that has one. */
static inline uint32_t profile_of(int number)
{
    return number % 2 ? MVTGATE_FEATURE : MVTGATE_POLYGON;
}

static inline int call(int number, const uint8_t *tile, size_t length, uint8_t *text, size_t room, size_t *text_length)
{
    switch (number) {
    case 2:
        return mvtgate_dump(tile, length, text, room, text_length);
    case 3:
        return mvtgate_advise(tile, length, text, room, text_length);
    case 4:
    case 5:
        return mvtgate_check_quickly(profile_of(number), tile, length, text, room, text_length);
    case 6:
    case 7:
        return mvtgate_faults(profile_of(number), tile, length, text, room, text_length);
    case 8:
    case 9:
        return mvtgate_faults_quickly(profile_of(number), tile, length, text, room, text_length);
    default:
        return mvtgate_check(profile_of(number), tile, length, text, room, text_length);
    }
}

/* Whether each line of a text is a fault that is true of the tile by the profile of the call. */
static inline int are_confirmed(int number, const uint8_t *tile, size_t length, const uint8_t *text, size_t text_length)
{
    for (size_t at = 0; at < text_length; ++at) {
        const uint8_t *end = (const uint8_t *)memchr(text + at, '\n', text_length - at);
        size_t its = end ? (size_t)(end - text) - at : text_length - at;
        if (mvtgate_confirm(profile_of(number), tile, length, text + at, its) != MVTGATE_CONFIRMED)
            return 0;
        at += its;
    }
    return 1;
}

static inline void *checked(void *block, const char *what)
{
    if (!block || block == MAP_FAILED) {
        perror(what);
        exit(2);
    }
    return block;
}

/* A whole file, in a block of its size. */
typedef struct {
    uint8_t *bytes;
    size_t length;
} Tile;

static inline Tile read_tile(const char *path)
{
    FILE *file = (FILE *)checked(fopen(path, "rb"), path);
    Tile tile;
    fseek(file, 0, SEEK_END);
    tile.length = (size_t)ftell(file);
    rewind(file);
    /* (a block of no bytes may have no address) */
    tile.bytes = (uint8_t *)checked(malloc(tile.length ? tile.length : 1), path);
    if (fread(tile.bytes, 1, tile.length, file) != tile.length)
        checked(NULL, path);
    fclose(file);
    return tile;
}

/* Memory for at least so many bytes, between two pages that nothing may read or write. */
typedef struct {
    uint8_t *begin, *end;
} Fenced;

static inline Fenced fenced(size_t length)
{
    size_t page = (size_t)sysconf(_SC_PAGESIZE), size = (length / page + 1) * page;
    uint8_t *all = (uint8_t *)checked(mmap(NULL, size + 2 * page, PROT_NONE, MAP_PRIVATE | MAP_ANONYMOUS, -1, 0), "mmap");
    Fenced memory = {all + page, all + page + size};
    if (mprotect(memory.begin, size, PROT_READ | PROT_WRITE))
        checked(NULL, "mprotect");
    return memory;
}

static inline void unmap(Fenced memory)
{
    size_t page = (size_t)sysconf(_SC_PAGESIZE);
    munmap(memory.begin - page, (size_t)(memory.end - memory.begin) + 2 * page);
}

static inline Tile block_of(size_t length)
{
    Tile block = {(uint8_t *)checked(malloc(length ? length : 1), "malloc"), length};
    return block;
}

/* What mending answers, by a number: odd ones are by FEATURE, and from 2 on what can't be mended is left out. */
enum { MENDINGS = 4 };
static const char *const mending_names[MENDINGS] = {"mend polygon", "mend feature", "drop polygon", "drop feature"};

typedef struct {
    int status;
    Tile out, report;
} Mending;

static inline int call_mend(int number, Tile tile, Tile *out, Tile *report)
{
    return mvtgate_mend(profile_of(number), (uint32_t)(number / 2), tile.bytes, tile.length, out->bytes, out->length,
                        &out->length, report->bytes, report->length, &report->length);
}

/* It asks without room, and then with just what is wanted. */
static inline Mending mend(int number, Tile tile)
{
    uint8_t none;
    Mending it = {0, {&none, 0}, {&none, 0}};
    call_mend(number, tile, &it.out, &it.report);
    it.out = block_of(it.out.length);
    it.report = block_of(it.report.length);
    it.status = call_mend(number, tile, &it.out, &it.report);
    return it;
}

static inline void free_mending(Mending it)
{
    free(it.out.bytes);
    free(it.report.bytes);
}

static inline int are_same(Tile one, Tile other)
{
    return one.length == other.length && memcmp(one.bytes, other.bytes, one.length) == 0;
}

static inline int are_same_mendings(Mending one, Mending other)
{
    return one.status == other.status && are_same(one.out, other.out) && are_same(one.report, other.report);
}

static inline int is_valid(int number, Tile tile)
{
    uint8_t text[MVTGATE_TEXT_ROOM];
    size_t told;
    return mvtgate_check_quickly(profile_of(number), tile.bytes, tile.length, text, sizeof text, &told) == MVTGATE_VALID;
}

/* Whether some bytes have others in them. */
static inline int has(Tile bytes, const char *part)
{
    size_t length = strlen(part);
    for (size_t at = 0; at + length <= bytes.length; ++at)
        if (memcmp(bytes.bytes + at, part, length) == 0)
            return 1;
    return 0;
}

/* What is wrong with an answer, or NULL. */
static inline const char *wrong_mending(int number, Tile tile, Mending it)
{
    if ((it.status == MVTGATE_VALID) != is_valid(number, tile))
        return "the judge says another thing";
    switch (it.status) {
    case MVTGATE_VALID:
        return it.out.length || it.report.length ? "a length of a valid tile" : NULL;
    case MVTGATE_FAULT:
        if (it.out.length)
            return "bytes of a tile that is refused";
        return mvtgate_confirm(profile_of(number), tile.bytes, tile.length, it.report.bytes, it.report.length) ==
                       MVTGATE_CONFIRMED
                   ? NULL
                   : "the fault isn't confirmed";
    case MVTGATE_MENDED:
        if (!is_valid(number, it.out))
            return "what is mended isn't valid";
        if (number < 2 && has(it.report, "\"dropped\""))
            return "a feature is left out";
        return has(it.report, "{\"changed\":[{") && has(it.report, "}],\"ok\":true}") ? NULL : "the report is another text";
    default:
        return "another status";
    }
}

/* What a text's room is filled with, to see what is written. */
enum { UNWRITTEN = 0xA5 };

static inline int is_unwritten(const uint8_t *bytes, size_t length)
{
    for (size_t at = 0; at < length; ++at)
        if (bytes[at] != UNWRITTEN)
            return 0;
    return 1;
}

static unsigned passed, failed;

static inline void expect(int holds, const char *what, const char *where)
{
    if (holds)
        ++passed;
    else if (++failed <= 20)
        printf("%s: %s\n", where, what);
}

static inline int end_tests(void)
{
    printf("%u passed, %u failed\n", passed, failed);
    return failed != 0;
}

#endif

/* refused FILE..: refuses each request for memory of each call in turn: the call says so, writes nothing and leaves no block
 * behind, and the next call gives the right answer. The library's calls of malloc, realloc and free come here
 * (`ld --wrap`), and no others. */
#include "test.h"

void *__real_malloc(size_t size);
void *__real_realloc(void *block, size_t size);
void __real_free(void *block);

/* How many requests are granted before one is refused. */
static long granted = -1;
static long requests, blocks, refused;

static int is_refused(void)
{
    ++requests;
    return granted >= 0 && granted-- == 0;
}

void *__wrap_malloc(size_t size)
{
    void *block = is_refused() ? NULL : __real_malloc(size);
    blocks += block != NULL;
    return block;
}

void *__wrap_realloc(void *block, size_t size)
{
    void *other = is_refused() ? NULL : __real_realloc(block, size);
    blocks += !block && other;
    return other;
}

void __wrap_free(void *block)
{
    blocks -= block != NULL;
    __real_free(block);
}

static uint8_t right[1 << 20], text[1 << 20];

/* What is wrong with a call that is refused its next request after so many, and with the call after it, or NULL. */
static const char *wrong_without(long before, int number, Tile tile, int status, size_t length)
{
    size_t told = 12345;
    memset(text, UNWRITTEN, length + 64);
    granted = before;
    int given = call(number, tile.bytes, tile.length, text, sizeof text, &told);
    granted = -1;
    if (given != MVTGATE_NO_MEMORY || told != 0)
        return "another status, or a length";
    if (!is_unwritten(text, length + 64))
        return "a text is written";
    if (blocks != 0)
        return "a block is left";
    given = call(number, tile.bytes, tile.length, text, sizeof text, &told);
    if (given != status || told != length || memcmp(text, right, length) != 0)
        return "the next answer is another";
    return NULL;
}

/* A case for each call of a tile. */
static void try_call(const char *path, int number, Tile tile)
{
    size_t length;
    requests = blocks = 0;
    int status = call(number, tile.bytes, tile.length, right, sizeof right, &length);
    long count = requests;
    const char *wrong = status > MVTGATE_FAULT ? "no answer" : blocks != 0 ? "a block is left" : NULL;
    for (long before = 0; before < count && !wrong; ++before)
        wrong = wrong_without(before, number, tile, status, length);
    refused += count;
    expect(!wrong, wrong, path);
}

/* The same of a mending. */
static void try_mend(const char *path, int number, Tile tile)
{
    uint8_t *out = right, *report = text;
    Tile bytes = {out, sizeof right}, its_report = {report, sizeof text};
    requests = blocks = 0;
    int status = call_mend(number, tile, &bytes, &its_report), is_right = status != MVTGATE_NO_ROOM && blocks == 0;
    long count = requests;
    size_t length = bytes.length, report_length = its_report.length;
    for (long before = 0; before < count && is_right; ++before) {
        bytes.length = sizeof right;
        its_report.length = sizeof text;
        memset(out, UNWRITTEN, length + 64);
        memset(report, UNWRITTEN, report_length + 64);
        granted = before;
        int given = call_mend(number, tile, &bytes, &its_report);
        granted = -1;
        is_right = given == MVTGATE_NO_MEMORY && bytes.length == 0 && its_report.length == 0 && blocks == 0 &&
                   is_unwritten(out, length + 64) && is_unwritten(report, report_length + 64);
    }
    refused += count;
    expect(is_right, mending_names[number], path);
    bytes.length = sizeof right;
    its_report.length = sizeof text;
    int again = call_mend(number, tile, &bytes, &its_report);
    expect(again == status && bytes.length == length && its_report.length == report_length, "the next answer is another", path);
}

/* The same of the fault that check reports. */
static void try_confirm(const char *path, uint32_t profile, Tile tile)
{
    size_t length;
    if (mvtgate_check(profile, tile.bytes, tile.length, right, sizeof right, &length) != MVTGATE_FAULT)
        return;
    requests = 0;
    int is_right = mvtgate_confirm(profile, tile.bytes, tile.length, right, length) == MVTGATE_CONFIRMED;
    long count = requests;
    for (long before = 0; before < count && is_right; ++before) {
        granted = before;
        int given = mvtgate_confirm(profile, tile.bytes, tile.length, right, length);
        granted = -1;
        is_right = given == MVTGATE_NO_MEMORY && blocks == 0 &&
                   mvtgate_confirm(profile, tile.bytes, tile.length, right, length) == MVTGATE_CONFIRMED;
    }
    refused += count;
    expect(is_right && blocks == 0, "confirm", path);
}

int main(int words, char **word)
{
    for (int at = 1; at < words; ++at) {
        Tile tile = read_tile(word[at]);
        for (int number = 0; number < CALLS; ++number)
            try_call(word[at], number, tile);
        for (int number = 0; number < MENDINGS; ++number)
            try_mend(word[at], number, tile);
        try_confirm(word[at], MVTGATE_POLYGON, tile);
        try_confirm(word[at], MVTGATE_FEATURE, tile);
        free(tile.bytes);
    }
    printf("%ld requests were refused\n", refused);
    return end_tests();
}

/* harness FILE..: gives each file to every call of calls.c, by both profiles, and prints what they answer, a line for each: the file's
 * number, the call, the profile, the status, and the texts, in which spaces stand for lines' ends. Each request for memory of a call is
 * refused in turn first: then it answers so, and has given back all that it took.
 * harness: explains faults, each of which is a line of the input. */
#include <stdio.h>
#include <stdlib.h>
#include <string.h>

#include "calls.h"
#include "explain.h"

static long granted = -1, requests, blocks;

void *sql_take(size_t size)
{
    ++requests;
    if (granted >= 0 && granted-- == 0)
        return NULL;
    ++blocks;
    return malloc(size);
}

void sql_give_back(void *block)
{
    --blocks;
    free(block);
}

static void require(int holds, const char *what)
{
    if (holds)
        return;
    puts(what);
    exit(1);
}

/* A whole file in a block of its size. */
static Bytes read_file(const char *path)
{
    FILE *file = fopen(path, "rb");
    require(file && fseek(file, 0, SEEK_END) == 0, path);
    Bytes it = {NULL, (size_t)ftell(file)};
    rewind(file);
    uint8_t *bytes = malloc(it.length ? it.length : 1);
    require(bytes && fread(bytes, 1, it.length, file) == it.length, path);
    fclose(file);
    it.bytes = bytes;
    return it;
}

/* The calls by their numbers. Those of a list and of mending have two texts at most. */
enum { CALLS = 5 };
static const char *const names[CALLS] = {"check", "faults", "dump", "mend", "drop"};

static int call(int number, int profile, Bytes tile, Written *one, Written *other)
{
    static const size_t front = 4;
    one->block = other->block = NULL;
    one->front = front;
    switch (number) {
    case 0: {
        char text[MVTGATE_TEXT_ROOM + 1];
        int status = sql_check(profile, tile, text);
        one->length = strlen(text);
        one->block = malloc(one->front + one->length + 1);
        ++blocks;
        memcpy(text_of(one), text, one->length + 1);
        return status;
    }
    case 1:
        return sql_faults(profile, tile, one);
    case 2:
        return sql_dump(tile, one);
    default:
        return sql_mend(profile, number == 4, tile, one, other);
    }
}

static void give_back(Written *it)
{
    if (it->block)
        sql_give_back(it->block);
    it->block = NULL;
}

/* Refuses each request of a call in turn. */
static void refuse(int number, int profile, Bytes tile, long count)
{
    for (long before = 0; before < count; ++before) {
        Written one, other;
        granted = before;
        int status = call(number, profile, tile, &one, &other);
        granted = -1;
        require(status == MVTGATE_NO_MEMORY && !one.block && !other.block && blocks == 0, "a refused request is not told");
    }
}

static void print_text(const Written *it, int is_tile)
{
    if (!it->block)
        return;
    require(text_of(it)[it->length] == 0, "no zero byte at the end");
    putchar(' ');
    for (size_t at = 0; at < it->length; ++at)
        if (is_tile)
            printf("%02x", (unsigned char)text_of(it)[at]);
        else
            putchar(text_of(it)[at] == '\n' ? ' ' : text_of(it)[at]);
}

static void answer(int at, int number, int profile, Bytes tile)
{
    Written one, other;
    requests = 0;
    int status = call(number, profile, tile, &one, &other);
    long count = requests;
    printf("%d %s %s %d", at, names[number], profile ? "feature" : "polygon", status);
    print_text(&one, number > 2);
    print_text(&other, 0);
    putchar('\n');
    give_back(&one);
    give_back(&other);
    require(blocks == 0, "a block is left");
    refuse(number, profile, tile, count);
}

static void explain_all(void)
{
    static char line[4096];
    while (fgets(line, sizeof line, stdin)) {
        size_t length = strcspn(line, "\n");
        /* (a block of its size, so that a read behind it is seen) */
        char *text = malloc(length ? length : 1);
        Explanation *it = malloc(sizeof *it);
        memcpy(text, line, length);
        puts(explain((Bytes){(const uint8_t *)text, length}, it) ? it->text : "no fault");
        puts("");
        free(text);
        free(it);
    }
}

int main(int words, char **word)
{
    if (words == 1)
        explain_all();
    for (int at = 1; at < words; ++at) {
        Bytes tile = read_file(word[at]);
        for (int number = 0; number < CALLS; ++number)
            for (int profile = 0; profile < 2; ++profile)
                answer(at - 1, number, profile, tile);
        free((void *)tile.bytes);
    }
    return 0;
}

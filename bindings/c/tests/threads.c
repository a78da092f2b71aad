/* threads COPIES FILE..: four threads give the files to every function, each thread in another order and on a stack of 128 KB,
 * and compare with the answers of one thread. Smaller files are mended, too. Of each file there are so many cut and changed
 * copies too. Each tile and each text is in a block of just its size, so that valgrind sees what is read or written beyond. */
#include "test.h"

#include <pthread.h>

enum { THREADS = 4, STACK = 128 << 10 };

/* Only tiles of so many bytes at most are mended: larger ones that cost most take all the work that mending may take. */
enum { MENDED_MOST = 20000 };

typedef struct {
    const char *path;
    Tile tile;
    int status[CALLS];
    Tile text[CALLS];
    Mending mending[MENDINGS];
} Case;

static Case *cases;
static size_t count;

static Tile copied(Tile tile, size_t length)
{
    Tile copy = {(uint8_t *)checked(malloc(length ? length : 1), "malloc"), length};
    memcpy(copy.bytes, tile.bytes, length);
    return copy;
}

static int give(int number, Tile tile, Tile *text)
{
    uint8_t none;
    size_t wanted;
    call(number, tile.bytes, tile.length, &none, 0, &wanted);
    text->bytes = (uint8_t *)checked(malloc(wanted ? wanted : 1), "malloc");
    return call(number, tile.bytes, tile.length, text->bytes, wanted, &text->length);
}

static void add(const char *path, Tile tile)
{
    Case *it = &cases[count++];
    it->path = path;
    it->tile = tile;
    for (int number = 0; number < CALLS; ++number)
        it->status[number] = give(number, tile, &it->text[number]);
    for (int number = 0; number < MENDINGS && tile.length <= MENDED_MOST; ++number)
        it->mending[number] = mend(number, tile);
}

/* Even copies are cut, and odd ones have one bit changed. */
static void add_file(const char *path, unsigned copies)
{
    static uint32_t seed = 1;
    Tile tile = read_tile(path);
    for (unsigned at = 0; at < copies && tile.length; ++at) {
        seed = seed * UINT32_C(1103515245) + 12345;
        size_t place = (seed >> 8) % tile.length;
        Tile copy = copied(tile, at % 2 ? tile.length : place);
        if (at % 2)
            copy.bytes[place] ^= (uint8_t)(1u << (seed >> 4) % 8);
        add(path, copy);
    }
    add(path, tile);
}

static unsigned wrong_answers(const Case *it)
{
    unsigned wrong = 0;
    for (int number = 0; number < CALLS; ++number) {
        Tile text;
        int status = give(number, it->tile, &text);
        const Tile *right = &it->text[number];
        wrong +=
            status != it->status[number] || text.length != right->length || memcmp(text.bytes, right->bytes, text.length) != 0;
        if (status == MVTGATE_FAULT)
            wrong += !are_confirmed(number, it->tile.bytes, it->tile.length, text.bytes, text.length);
        free(text.bytes);
    }
    return wrong;
}

static unsigned wrong_mendings(const Case *it)
{
    unsigned wrong = 0;
    for (int number = 0; number < MENDINGS && it->tile.length <= MENDED_MOST; ++number) {
        Mending given = mend(number, it->tile);
        wrong += !are_same_mendings(given, it->mending[number]) || wrong_mending(number, it->tile, given);
        free_mending(given);
    }
    return wrong;
}

typedef struct {
    pthread_t thread;
    size_t first;
    unsigned wrong;
} Worker;

static void *work(void *its)
{
    Worker *worker = (Worker *)its;
    for (size_t at = 0; at < count; ++at) {
        const Case *it = &cases[(at + worker->first) % count];
        worker->wrong += wrong_answers(it) + wrong_mendings(it);
    }
    return NULL;
}

int main(int words, char **word)
{
    unsigned copies = words > 1 ? (unsigned)atol(word[1]) : 0;
    cases = (Case *)checked(calloc((size_t)words * (copies + 1), sizeof *cases), "calloc");
    for (int at = 2; at < words; ++at)
        add_file(word[at], copies);

    Worker workers[THREADS];
    pthread_attr_t small;
    pthread_attr_init(&small);
    pthread_attr_setstacksize(&small, STACK);
    for (size_t at = 0; at < THREADS; ++at) {
        workers[at].first = count * at / THREADS;
        workers[at].wrong = 0;
        if (pthread_create(&workers[at].thread, &small, work, &workers[at]))
            checked(NULL, "pthread_create");
    }
    for (size_t at = 0; at < THREADS; ++at) {
        pthread_join(workers[at].thread, NULL);
        expect(workers[at].wrong == 0, "wrong answers", "a thread");
    }

    for (size_t at = 0; at < count; ++at) {
        for (int number = 0; number < CALLS; ++number)
            free(cases[at].text[number].bytes);
        for (int number = 0; number < MENDINGS; ++number)
            free_mending(cases[at].mending[number]);
        free(cases[at].tile.bytes);
    }
    free(cases);
    printf("%zu tiles\n", count);
    return end_tests();
}

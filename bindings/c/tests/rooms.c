/* rooms FILE..: gives each function rooms of every size, and checks what it writes: all of the text and its length, where
 * there is room, else the length alone. The room ends where its memory ends; bytes before and after the text stay. */
#include "test.h"

enum { BEFORE = 16, MOST = MVTGATE_TEXT_ROOM + 16 };

/* What is wrong with one call that has a room of this size at the end of the memory, or NULL. */
static const char *wrong_with_room(int number, Tile tile, Fenced memory, size_t room, const Tile *right, int status)
{
    uint8_t *text = memory.end - room;
    memset(memory.begin, UNWRITTEN, (size_t)(memory.end - memory.begin));
    size_t told = 12345;
    int given = call(number, tile.bytes, tile.length, text, room, &told);
    int fits = right->length <= room;
    size_t written = fits ? right->length : 0;
    if (given != (fits ? status : MVTGATE_NO_ROOM))
        return "another status";
    if (told != right->length)
        return "another length";
    if (memcmp(text, right->bytes, written) != 0)
        return "another text";
    if (!is_unwritten(text + written, room - written))
        return "bytes behind the text are written";
    if (!is_unwritten(memory.begin, (size_t)(text - memory.begin)))
        return "bytes before the room are written";
    return NULL;
}

/* A case for each call of a tile. */
static void try_rooms(const char *path, int number, Tile tile)
{
    uint8_t none;
    Tile right = {NULL, 0};
    call(number, tile.bytes, tile.length, &none, 0, &right.length);
    size_t wanted = right.length, most = wanted > MOST ? wanted : MOST;
    right.bytes = (uint8_t *)checked(malloc(wanted + 1), "malloc");
    int status = call(number, tile.bytes, tile.length, right.bytes, wanted, &right.length);
    Fenced memory = fenced(most + 2 * BEFORE);
    const char *wrong = NULL;
    for (size_t room = 0; room <= most + 1 && !wrong; ++room)
        wrong = wrong_with_room(number, tile, memory, room, &right, status);
    expect(!wrong, wrong, path);
    unmap(memory);
    free(right.bytes);
}

int main(int words, char **word)
{
    for (int at = 1; at < words; ++at) {
        Tile tile = read_tile(word[at]);
        for (int number = 0; number < CALLS; ++number)
            try_rooms(word[at], number, tile);
        free(tile.bytes);
    }
    return end_tests();
}

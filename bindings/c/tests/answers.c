/* answers FILE..: gives each file to every function, and prints what they answer: a line 'CALL STATUS TEXT' for each, in which
 * spaces stand for the ends of the text's lines, after faults a line 'confirmed', and an empty line. The bytes lie right
 * before a page without access, and then right after one; where the answers differ, it says so. */
#include "test.h"

typedef struct {
    int status, confirmed;
    size_t length;
    uint8_t *text;
} Answer;

/* The tile and the room for the text end where their memory ends, or begin where it begins. */
static Answer answer(int number, Tile tile, int at_end)
{
    Fenced input = fenced(tile.length);
    uint8_t *bytes = at_end ? input.end - tile.length : input.begin;
    memcpy(bytes, tile.bytes, tile.length);
    mprotect(input.begin, (size_t)(input.end - input.begin), PROT_READ);

    Answer given = {0, 0, 0, NULL};
    uint8_t none;
    size_t wanted;
    call(number, bytes, tile.length, &none, 0, &wanted);
    Fenced output = fenced(wanted);
    uint8_t *text = at_end ? output.end - wanted : output.begin;
    given.status = call(number, bytes, tile.length, text, wanted, &given.length);
    if (given.status == MVTGATE_FAULT)
        given.confirmed = are_confirmed(number, bytes, tile.length, text, given.length);
    given.text = (uint8_t *)checked(malloc(given.length + 1), "malloc");
    memcpy(given.text, text, given.length);
    unmap(input);
    unmap(output);
    return given;
}

static int are_same_answers(Answer one, Answer other)
{
    return one.status == other.status && one.confirmed == other.confirmed && one.length == other.length &&
           memcmp(one.text, other.text, one.length) == 0;
}

int main(int words, char **word)
{
    for (int at = 1; at < words; ++at) {
        Tile tile = read_tile(word[at]);
        for (int number = 0; number < CALLS; ++number) {
            Answer given = answer(number, tile, 1), other = answer(number, tile, 0);
            if (!are_same_answers(given, other))
                puts("in other memory the answer is another:");
            for (size_t place = 0; place < given.length; ++place)
                if (given.text[place] == '\n')
                    given.text[place] = ' ';
            printf("%s %d %.*s\n", call_names[number], given.status, (int)given.length, (const char *)given.text);
            if (given.confirmed)
                puts("confirmed");
            free(given.text);
            free(other.text);
        }
        puts("");
        free(tile.bytes);
    }
    return 0;
}

/* A library that stands in the place of the real one: it answers what a test has put down, and keeps what it was given. */
#include "mvtgate.h"
#include <string.h>
#include <unistd.h>

/* The status of each call but those that want more room, the lengths of what they write, and the byte that this is made of. */
int answer;
size_t wanted, wanted_out;
unsigned char filling = 'x';
/* Where this isn't 0, a call waits, after it has said that it is there. */
volatile int is_closed, is_inside;

/* What the calls were given: how often, and the last time which bytes, profile and flag. The rooms are those of the first calls. */
enum { ROOMS = 8 };
size_t calls, rooms[ROOMS], out_rooms[ROOMS];
const uint8_t *bytes;
size_t length;
uint32_t profile, flag;

static void note(const uint8_t *tile, size_t tile_length, size_t room)
{
    if (calls < ROOMS)
        rooms[calls] = room;
    ++calls;
    bytes = tile;
    length = tile_length;
    is_inside = is_closed;
    while (is_closed)
        usleep(1000);
    is_inside = 0;
}

static int written(uint8_t *text, size_t room, size_t *text_length, size_t its_length)
{
    *text_length = its_length;
    if (its_length > room)
        return MVTGATE_NO_ROOM;
    memset(text, filling, its_length);
    return answer;
}

int mvtgate_check(uint32_t by, const uint8_t *tile, size_t tile_length, uint8_t *text, size_t room, size_t *text_length)
{
    profile = by;
    note(tile, tile_length, room);
    return written(text, room, text_length, wanted);
}

int mvtgate_check_quickly(uint32_t by, const uint8_t *tile, size_t tile_length, uint8_t *text, size_t room, size_t *text_length)
{
    flag = 1;
    return mvtgate_check(by, tile, tile_length, text, room, text_length);
}

int mvtgate_faults(uint32_t by, const uint8_t *tile, size_t tile_length, uint8_t *text, size_t room, size_t *text_length)
{
    return mvtgate_check(by, tile, tile_length, text, room, text_length);
}

int mvtgate_faults_quickly(uint32_t by, const uint8_t *tile, size_t tile_length, uint8_t *text, size_t room, size_t *text_length)
{
    flag = 1;
    return mvtgate_check(by, tile, tile_length, text, room, text_length);
}

int mvtgate_dump(const uint8_t *tile, size_t tile_length, uint8_t *text, size_t room, size_t *text_length)
{
    note(tile, tile_length, room);
    return written(text, room, text_length, wanted);
}

int mvtgate_advise(const uint8_t *tile, size_t tile_length, uint8_t *text, size_t room, size_t *text_length)
{
    note(tile, tile_length, room);
    return written(text, room, text_length, wanted);
}

int mvtgate_mend(uint32_t by, uint32_t drop, const uint8_t *tile, size_t tile_length, uint8_t *out, size_t out_room,
                 size_t *out_length, uint8_t *report, size_t report_room, size_t *report_length)
{
    profile = by;
    flag = drop;
    if (calls < ROOMS)
        out_rooms[calls] = out_room;
    note(tile, tile_length, report_room);
    int of_report = written(report, report_room, report_length, wanted);
    int of_out = written(out, out_room, out_length, wanted_out);
    return of_report == MVTGATE_NO_ROOM ? of_report : of_out;
}

int mvtgate_confirm(uint32_t by, const uint8_t *tile, size_t tile_length, const uint8_t *text, size_t text_length)
{
    profile = by;
    flag = text_length != 0 && text != NULL;
    note(tile, tile_length, text_length);
    return answer;
}

uint32_t mvtgate_version(void)
{
    return 10203;
}

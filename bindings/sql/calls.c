#include "calls.h"

#include <string.h>

/* The first room of a list of faults or of a report: for some hundred of them. */
enum { LIST_ROOM = 16 << 10 };

/* A dump has about ten times the bytes of its tile. No more is reserved at first than this. */
enum { DUMP_TIMES = 12, MOST_DUMP_ROOM = 16 << 20 };

/* What a mended tile may have beyond the bytes of the one that was refused. */
enum { MORE_BYTES = 4096 };

int sql_profile(const char *name, size_t length)
{
    if (length != 7)
        return -1;
    return memcmp(name, "polygon", 7) == 0 ? MVTGATE_POLYGON : memcmp(name, "feature", 7) == 0 ? MVTGATE_FEATURE : -1;
}

/* Rooms. One has `length` bytes until a call has written there. */

static int begin(Written *room, size_t length)
{
    room->length = length;
    room->block = sql_take(room->front + length + 1);
    return room->block != NULL;
}

static void drop_room(Written *room)
{
    if (room->block)
        sql_give_back(room->block);
    room->block = NULL;
    room->length = 0;
}

/* A room of the length that a call wanted. */
static int begin_again(Written *room, size_t wanted)
{
    drop_room(room);
    return begin(room, wanted);
}

/* Keeps what was written, or drops the room where nothing was. */
static void end(Written *room, int is_written, size_t length)
{
    if (!is_written) {
        drop_room(room);
        return;
    }
    room->length = length;
    room->block[room->front + length] = 0;
}

/* A call of the library that writes one text. */
typedef int Call(int profile, Bytes tile, uint8_t *text, size_t room, size_t *length);

static int call_faults(int profile, Bytes tile, uint8_t *text, size_t room, size_t *length)
{
    return mvtgate_faults_quickly((uint32_t)profile, tile.bytes, tile.length, text, room, length);
}

static int call_dump(int profile, Bytes tile, uint8_t *text, size_t room, size_t *length)
{
    (void)profile;
    return mvtgate_dump(tile.bytes, tile.length, text, room, length);
}

static int write_text(Call *call, int profile, Bytes tile, Written *text, size_t first_room)
{
    size_t length = 0;
    text->front = 0;
    int status = begin(text, first_room) ? MVTGATE_NO_ROOM : MVTGATE_NO_MEMORY;
    if (status == MVTGATE_NO_ROOM)
        status = call(profile, tile, text->block, text->length, &length);
    if (status == MVTGATE_NO_ROOM)
        status = begin_again(text, length) ? call(profile, tile, text->block, text->length, &length) : MVTGATE_NO_MEMORY;
    end(text, status <= MVTGATE_FAULT && length, length);
    return status;
}

int sql_check(int profile, Bytes tile, char text[MVTGATE_TEXT_ROOM + 1])
{
    size_t length = 0;
    int status = mvtgate_check_quickly((uint32_t)profile, tile.bytes, tile.length, (uint8_t *)text, MVTGATE_TEXT_ROOM, &length);
    text[length] = 0;
    return status;
}

int sql_faults(int profile, Bytes tile, Written *lines)
{
    return write_text(call_faults, profile, tile, lines, LIST_ROOM);
}

int sql_dump(Bytes tile, Written *text)
{
    size_t room = tile.length < MOST_DUMP_ROOM / DUMP_TIMES ? DUMP_TIMES * tile.length + MVTGATE_TEXT_ROOM : MOST_DUMP_ROOM;
    return write_text(call_dump, 0, tile, text, room);
}

static int call_mend(int profile, int drop, Bytes tile, Written *out, Written *report, size_t *length, size_t *report_length)
{
    return mvtgate_mend((uint32_t)profile, (uint32_t)drop, tile.bytes, tile.length, out->block + out->front, out->length, length,
                        report->block, report->length, report_length);
}

static int mend(int profile, int drop, Bytes tile, Written *out, Written *report)
{
    size_t length = 0, report_length = 0;
    report->front = 0;
    report->block = NULL;
    int status = MVTGATE_NO_MEMORY;
    if (begin(out, tile.length + MORE_BYTES) && begin(report, LIST_ROOM))
        status = call_mend(profile, drop, tile, out, report, &length, &report_length);
    if (status == MVTGATE_NO_ROOM)
        status = begin_again(out, length) && begin_again(report, report_length)
                     ? call_mend(profile, drop, tile, out, report, &length, &report_length)
                     : MVTGATE_NO_MEMORY;
    end(out, status == MVTGATE_MENDED, length);
    end(report, status == MVTGATE_MENDED || status == MVTGATE_FAULT, report_length);
    return status;
}

int sql_mend(int profile, int drop, Bytes tile, Written *out, Written *report)
{
    out->block = report->block = NULL;
    if (profile == MVTGATE_FEATURE && tile.length > LONGEST_MENDED_BY_FEATURE) {
        char text[MVTGATE_TEXT_ROOM + 1];
        int status = sql_check(profile, tile, text);
        return status == MVTGATE_FAULT ? SQL_TOO_LONG : status;
    }
    return mend(profile, drop, tile, out, report);
}

int sql_is_fault(Bytes text)
{
    static const uint8_t no_tile[1];
    return mvtgate_confirm(MVTGATE_FEATURE, no_tile, 0, text.bytes, text.length);
}

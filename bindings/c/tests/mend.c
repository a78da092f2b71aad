/* mend FILE..: mends tiles that are made by hand, and each file, by both profiles, with leave to drop and without; and gives
 * rooms that are too small, of which nothing is written. */
#include "test.h"

/* A layer with one feature of type polygon, whose numbers come after it. */
#define LAYER(length, feature, numbers) 0x1a, length, 0x78, 0x02, 0x0a, 0x01, 0x61, 0x12, feature, 0x18, 0x03, 0x22, numbers

/* A square of 10 by 10 units that is wound backwards, so that its first ring is a hole (503). It is turned, from its own first
 * position. */
static const uint8_t backwards[] = {LAYER(0x16, 0x0f, 0x0b), 9, 0, 0, 26, 0, 20, 20, 0, 0, 19, 15};
static const uint8_t turned[] = {LAYER(0x16, 0x0f, 0x0b), 9, 0, 0, 26, 20, 0, 0, 20, 19, 0, 15};
static const char its_report[] =
    "{\"changed\":[{\"area\":[\"-200\",\"200\"],\"crossings\":0,\"cuts\":0,\"feature\":0,\"layer\":0,"
    "\"polygons\":[0,1],\"vertices\":[4,4],\"what\":\"mended\"}],\"ok\":true}";

/* MoveTo with a count of 0 draws no ring, so it can only be left out. */
static const uint8_t no_ring[] = {LAYER(0x0e, 0x07, 0x03), 1, 50, 34};
static const uint8_t no_feature[] = {0x1a, 0x05, 0x78, 0x02, 0x0a, 0x01, 0x61};
static const char its_fault[] = "{\"code\":402,\"feature\":0,\"index\":0,\"layer\":0}";
static const char its_drop[] = "{\"changed\":[{\"feature\":0,\"layer\":0,\"what\":\"dropped\"}],\"ok\":true}";

/* A layer that is cut. */
static const uint8_t cut[] = {0x1a, 0x05};
static const char cut_fault[] = "{\"at\":0,\"code\":105,\"field\":3,\"scope\":\"tile\"}";

static Tile bytes_of(const void *bytes, size_t length)
{
    Tile copy = block_of(length);
    memcpy(copy.bytes, bytes, length);
    return copy;
}

static void try_by_hand(int number, Tile tile, int status, Tile out, const char *report, const char *name)
{
    Mending given = mend(number, tile), right = {status, out, bytes_of(report, strlen(report))};
    expect(are_same_mendings(given, right), mending_names[number], name);
    free_mending(given);
    free(right.report.bytes);
}

static void try_all_by_hand(int number)
{
    int drops = number >= 2;
    Tile none = bytes_of("", 0), wrong = bytes_of(backwards, sizeof backwards), right = bytes_of(turned, sizeof turned);
    Tile unmended = bytes_of(no_ring, sizeof no_ring), left = bytes_of(no_feature, sizeof no_feature);
    Tile no_tile = bytes_of(cut, sizeof cut);
    try_by_hand(number, none, MVTGATE_VALID, none, "", "no bytes");
    try_by_hand(number, right, MVTGATE_VALID, none, "", "a square");
    try_by_hand(number, wrong, MVTGATE_MENDED, right, its_report, "a square that is wound backwards");
    try_by_hand(number, unmended, drops ? MVTGATE_MENDED : MVTGATE_FAULT, drops ? left : none, drops ? its_drop : its_fault,
                "no ring");
    try_by_hand(number, no_tile, MVTGATE_FAULT, none, cut_fault, "a cut layer");
    Tile *const all[] = {&none, &wrong, &right, &unmended, &left, &no_tile};
    for (size_t at = 0; at < sizeof all / sizeof *all; ++at)
        free(all[at]->bytes);
}

/* Any number but 0 gives leave to drop. */
static void try_drops(void)
{
    const uint32_t numbers[] = {1, 2, 256, UINT32_C(1) << 31, UINT32_MAX};
    for (size_t at = 0; at < sizeof numbers / sizeof *numbers; ++at) {
        uint8_t out[64], report[MVTGATE_TEXT_ROOM];
        size_t length, report_length;
        int status = mvtgate_mend(MVTGATE_POLYGON, numbers[at], no_ring, sizeof no_ring, out, sizeof out, &length, report,
                                  sizeof report, &report_length);
        expect(status == MVTGATE_MENDED && length == sizeof no_feature && report_length == strlen(its_drop), "drop",
               "its number");
    }
}

static void try_profiles(void)
{
    const uint32_t no_profiles[] = {2, 3, 256, UINT32_C(1) << 31, UINT32_MAX};
    for (size_t at = 0; at < sizeof no_profiles / sizeof *no_profiles; ++at) {
        uint8_t out[64], report[MVTGATE_TEXT_ROOM];
        size_t length = 12345, report_length = 12345;
        memset(out, UNWRITTEN, sizeof out);
        memset(report, UNWRITTEN, sizeof report);
        int status = mvtgate_mend(no_profiles[at], 1, backwards, sizeof backwards, out, sizeof out, &length, report,
                                  sizeof report, &report_length);
        expect(status == MVTGATE_NO_PROFILE && length == 0 && report_length == 0 && is_unwritten(out, sizeof out) &&
                   is_unwritten(report, sizeof report),
               "mend", "no profile");
    }
}

/* What is wrong with a call that has rooms of these sizes at the ends of their memories, or NULL. */
static const char *wrong_with_rooms(int number, Tile tile, Mending right, Fenced memory, size_t room, Fenced other,
                                    size_t report_room)
{
    Tile out = {memory.end - room, room}, report = {other.end - report_room, report_room};
    memset(memory.begin, UNWRITTEN, (size_t)(memory.end - memory.begin));
    memset(other.begin, UNWRITTEN, (size_t)(other.end - other.begin));
    int fits = right.out.length <= room && right.report.length <= report_room;
    size_t written = fits ? right.out.length : 0, report_written = fits ? right.report.length : 0;
    if (call_mend(number, tile, &out, &report) != (fits ? right.status : MVTGATE_NO_ROOM))
        return "another status";
    if (out.length != right.out.length || report.length != right.report.length)
        return "another length";
    if (memcmp(out.bytes, right.out.bytes, written) != 0 || memcmp(report.bytes, right.report.bytes, report_written) != 0)
        return "other bytes, or another report";
    if (!is_unwritten(out.bytes + written, room - written) ||
        !is_unwritten(report.bytes + report_written, report_room - report_written))
        return "bytes behind are written";
    if (!is_unwritten(memory.begin, (size_t)(out.bytes - memory.begin)) ||
        !is_unwritten(other.begin, (size_t)(report.bytes - other.begin)))
        return "bytes before a room are written";
    return NULL;
}

/* Rooms of no bytes, of one byte too few, of just what is wanted, and of more. */
static void try_rooms(const char *name, int number, Tile tile)
{
    Mending right = mend(number, tile);
    const char *wrong = wrong_mending(number, tile, right);
    Fenced memory = fenced(right.out.length + 9), other = fenced(right.report.length + 9);
    const size_t sizes[] = {0, right.out.length - 1, right.out.length, right.out.length + 9};
    const size_t report_sizes[] = {0, right.report.length - 1, right.report.length, right.report.length + 9};
    for (int at = 0; at < 16 && !wrong; ++at)
        /* (where nothing is wanted there is no byte too few) */
        if (sizes[at / 4] != SIZE_MAX && report_sizes[at % 4] != SIZE_MAX)
            wrong = wrong_with_rooms(number, tile, right, memory, sizes[at / 4], other, report_sizes[at % 4]);
    expect(!wrong, wrong, name);
    unmap(memory);
    unmap(other);
    free_mending(right);
}

/* A tile that was mended is mended to itself. */
static void try_again(const char *name, int number, Tile tile)
{
    Mending once = mend(number, tile);
    if (once.status == MVTGATE_MENDED) {
        Mending again = mend(number, once.out);
        expect(again.status == MVTGATE_VALID, mending_names[number], name);
        free_mending(again);
    }
    free_mending(once);
}

int main(int words, char **word)
{
    for (int number = 0; number < MENDINGS; ++number)
        try_all_by_hand(number);
    try_drops();
    try_profiles();
    for (int at = 1; at < words; ++at) {
        Tile tile = read_tile(word[at]);
        for (int number = 0; number < MENDINGS; ++number) {
            try_rooms(word[at], number, tile);
            try_again(word[at], number, tile);
        }
        free(tile.bytes);
    }
    return end_tests();
}

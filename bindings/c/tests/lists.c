/* lists: the lines of a tile with faults in several layers and features, by either profile and either search. */
#include "test.h"

/* Three layers of one name, the second of version 1. The first has a feature with a wrong command, a point, a polygon whose
 * edges cross, and two squares that overlap; the second has the feature with the wrong command. */
static const uint8_t layers[] = {
    0x1a, 0x44, 0x78, 0x02, 0x0a, 0x01, 0x61, 0x12, 0x07, 0x18, 0x01, 0x22, 0x03, 0x0a, 0x32, 0x22, 0x12, 0x07, 0x18,
    0x01, 0x22, 0x03, 0x09, 0x32, 0x22, 0x12, 0x0f, 0x18, 0x03, 0x22, 0x0b, 0x09, 0x00, 0x10, 0x1a, 0x14, 0x0f, 0x00,
    0x14, 0x13, 0x13, 0x0f, 0x12, 0x1a, 0x18, 0x03, 0x22, 0x16, 0x09, 0x00, 0x00, 0x1a, 0x14, 0x00, 0x00, 0x14, 0x13,
    0x00, 0x0f, 0x09, 0x0a, 0x09, 0x1a, 0x14, 0x00, 0x00, 0x14, 0x13, 0x00, 0x0f, 0x1a, 0x0e, 0x78, 0x01, 0x0a, 0x01,
    0x61, 0x12, 0x07, 0x18, 0x01, 0x22, 0x03, 0x0a, 0x32, 0x22, 0x1a, 0x05, 0x78, 0x02, 0x0a, 0x01, 0x61,
};

static const char begin[] = "{\"code\":201,\"layer\":1}\n"
                            "{\"code\":202,\"first\":0,\"second\":2}\n"
                            "{\"code\":401,\"feature\":0,\"index\":0,\"layer\":0}\n"
                            "{\"code\":504,\"feature\":2,\"first\":{\"edge\":0,\"ring\":0},\"layer\":0,\"polygon\":0,"
                            "\"second\":{\"edge\":2,\"ring\":0},\"w\":\"180\",\"x\":\"800\",\"y\":\"800\"}\n";
static const char in_polygon[] = "{\"code\":507,\"feature\":3,\"layer\":0,\"other\":1,\"polygon\":0,\"vertex\":2}\n";
/* (either may be named) */
static const char meeting[] = "{\"code\":504,\"feature\":3,\"first\":{\"edge\":1,\"ring\":0},\"layer\":0,\"polygon\":1,"
                              "\"second\":{\"edge\":0,\"ring\":1},\"w\":\"100\",\"x\":\"1000\",\"y\":\"500\"}\n";
static const char other_meeting[] = "{\"code\":504,\"feature\":3,\"first\":{\"edge\":2,\"ring\":0},\"layer\":0,\"polygon\":1,"
                                    "\"second\":{\"edge\":3,\"ring\":1},\"w\":\"100\",\"x\":\"500\",\"y\":\"1000\"}\n";
static const char end[] = "{\"code\":401,\"feature\":0,\"index\":0,\"layer\":1}\n";

/* Whether a call writes the first lines, these for the squares, and the last. */
static int writes(int number, const char *squares)
{
    uint8_t text[4096];
    size_t told;
    char wanted[4096];
    int length = snprintf(wanted, sizeof wanted, "%s%s%s", begin, squares, end);
    return call(number, layers, sizeof layers, text, sizeof text, &told) == MVTGATE_FAULT && told == (size_t)length &&
           memcmp(text, wanted, told) == 0;
}

int main(void)
{
    expect(writes(6, ""), call_names[6], "layers");
    expect(writes(7, in_polygon), call_names[7], "layers");
    expect(writes(8, ""), call_names[8], "layers");
    expect(writes(9, meeting) || writes(9, other_meeting), call_names[9], "layers");
    return end_tests();
}

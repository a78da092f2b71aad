/* statuses VERSION: the statuses for bad profiles and bad texts, and the version, which is to be this number. */
#include "test.h"

#include <pthread.h>

/* A layer that is cut: a field of length 5 with no byte of it. */
static const uint8_t cut[] = {0x1a, 0x05};
static const char its_fault[] = "{\"at\":0,\"code\":105,\"field\":3,\"scope\":\"tile\"}";

static const struct {
    const char *text;
    int status;
} claims[] = {
    {its_fault, MVTGATE_CONFIRMED},
    {" { \"scope\" : \"tile\", \"field\":3,\t\"code\":105, \n\"at\":1, \"at\":0 } ", MVTGATE_CONFIRMED},
    {"{\"at\":1,\"code\":105,\"field\":3,\"scope\":\"tile\"}", MVTGATE_NOT_CONFIRMED},
    {"{\"code\":201,\"layer\":0}", MVTGATE_NOT_CONFIRMED},
    {"{\"code\":201,\"layer\":18446744073709551615}", MVTGATE_NOT_CONFIRMED},
    {"", MVTGATE_NOT_JSON},
    {" ", MVTGATE_NOT_JSON},
    {"[", MVTGATE_NOT_JSON},
    {"\xff", MVTGATE_NOT_JSON},
    {"{\"code\":201,\"layer\":0}}", MVTGATE_NOT_JSON},
    {"null", MVTGATE_NOT_A_FAULT},
    {"{}", MVTGATE_NOT_A_FAULT},
    {"{\"ok\":true}", MVTGATE_NOT_A_FAULT},
    {"{\"code\":201}", MVTGATE_NOT_A_FAULT},
    {"{\"code\":201,\"layer\":0,\"more\":0}", MVTGATE_NOT_A_FAULT},
    {"{\"code\":201,\"layer\":18446744073709551616}", MVTGATE_NOT_A_FAULT},
    {"{\"code\":999,\"layer\":0}", MVTGATE_NOT_A_FAULT},
    {"{\"at\":0,\"code\":105,\"field\":4294967296,\"scope\":\"tile\"}", MVTGATE_FAULT_RANGE},
};

/* The text ends where its memory ends, and then begins where it begins. */
static int confirm(uint32_t profile, const char *text)
{
    size_t length = strlen(text);
    Fenced memory = fenced(length);
    memcpy(memory.begin, text, length);
    int status = mvtgate_confirm(profile, cut, sizeof cut, memory.begin, length);
    memcpy(memory.end - length, text, length);
    if (mvtgate_confirm(profile, cut, sizeof cut, memory.end - length, length) != status)
        status = -1;
    unmap(memory);
    return status;
}

static void try_profile(uint32_t profile)
{
    int (*const calls[])(uint32_t, const uint8_t *, size_t, uint8_t *, size_t,
                         size_t *) = {mvtgate_check, mvtgate_check_quickly, mvtgate_faults, mvtgate_faults_quickly};
    for (size_t at = 0; at < sizeof calls / sizeof *calls; ++at) {
        uint8_t text[MVTGATE_TEXT_ROOM];
        memset(text, UNWRITTEN, sizeof text);
        size_t told = 12345;
        int status = calls[at](profile, cut, sizeof cut, text, sizeof text, &told);
        expect(status == MVTGATE_NO_PROFILE && told == 0 && is_unwritten(text, sizeof text), "check", "no profile");
    }
    expect(confirm(profile, its_fault) == MVTGATE_NO_PROFILE, "confirm", "no profile");
    expect(confirm(profile, "[") == MVTGATE_NO_PROFILE, "confirm of no JSON", "no profile");
}

/* So many objects in each other. */
static int confirm_nested(size_t depth)
{
    static const char begin[] = "{\"at\":";
    size_t length = depth * sizeof begin + 1, at = 0;
    uint8_t *text = (uint8_t *)checked(malloc(length), "malloc");
    for (size_t number = 0; number < depth; ++number, at += strlen(begin))
        memcpy(text + at, begin, strlen(begin));
    text[at++] = '0';
    memset(text + at, '}', length - at);
    int status = mvtgate_confirm(MVTGATE_POLYGON, cut, sizeof cut, text, length);
    free(text);
    return status;
}

/* JSON is read to a depth of 127. A thread has the stack that the header asks for. */
static void *try_deep_texts(void *nothing)
{
    expect(confirm_nested(127) == MVTGATE_NOT_A_FAULT, "confirm", "127 objects in each other");
    expect(confirm_nested(128) == MVTGATE_NOT_JSON, "confirm", "128 objects in each other");
    expect(confirm_nested(1000000) == MVTGATE_NOT_JSON, "confirm", "a million objects in each other");
    return nothing;
}

int main(int words, char **word)
{
    for (size_t at = 0; at < sizeof claims / sizeof *claims; ++at) {
        expect(confirm(MVTGATE_POLYGON, claims[at].text) == claims[at].status, "by polygon", claims[at].text);
        expect(confirm(MVTGATE_FEATURE, claims[at].text) == claims[at].status, "by feature", claims[at].text);
    }
    const uint32_t no_profiles[] = {2, 3, 256, UINT32_C(1) << 31, UINT32_MAX};
    for (size_t at = 0; at < sizeof no_profiles / sizeof *no_profiles; ++at)
        try_profile(no_profiles[at]);
    pthread_t thread;
    pthread_attr_t small;
    pthread_attr_init(&small);
    pthread_attr_setstacksize(&small, 128 << 10);
    if (pthread_create(&thread, &small, try_deep_texts, NULL))
        checked(NULL, "pthread_create");
    pthread_join(thread, NULL);
    expect(words == 2 && mvtgate_version() == (uint32_t)atol(word[1]), "the number", "the version");
    return end_tests();
}

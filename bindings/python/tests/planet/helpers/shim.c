/* A library that stands before the real one, for tests of what goes wrong. It forwards all calls to the library that
 * SHIM_LIBRARY names. A check takes SHIM_DELAY microseconds more. A tile whose last bytes are one of the marks below is
 * forwarded without them, and what the mark says happens. With SHIM_ENDS it ends the process that loads it.
 *
 * SHIM_GATE names a file that is a gate: a process that comes to it waits until there is such a file. It writes its number
 * into the file of that name and '.waiting' before. To the gate come tiles with the mark for it, confirmations that are slow,
 * and where SHIM_FREE is given all tiles of a process after so many. */
#include <dlfcn.h>
#include <signal.h>
#include <stdatomic.h>
#include <stddef.h>
#include <stdint.h>
#include <stdio.h>
#include <stdlib.h>
#include <string.h>
#include <unistd.h>

enum { MARK = 8, NOT_CONFIRMED = 1, NO_MEMORY = 2 };

typedef int Judge(uint32_t, const uint8_t *, size_t, uint8_t *, size_t, size_t *);

static Judge *real_check, *real_check_quickly, *real_faults, *real_faults_quickly;
static int (*real_mend)(uint32_t, uint32_t, const uint8_t *, size_t, uint8_t *, size_t, size_t *, uint8_t *, size_t, size_t *);
static int (*real_confirm)(uint32_t, const uint8_t *, size_t, const uint8_t *, size_t);
static int (*real_dump)(const uint8_t *, size_t, uint8_t *, size_t, size_t *);
static int (*real_advise)(const uint8_t *, size_t, uint8_t *, size_t, size_t *);
static uint32_t (*real_version)(void);
static useconds_t delay;
static const char *gate;
static long free_tiles = -1;
static atomic_long judged;

static void *found(void *library, const char *name)
{
    void *call = library ? dlsym(library, name) : NULL;
    if (!call) {
        fprintf(stderr, "shim: %s\n", dlerror());
        abort();
    }
    return call;
}

__attribute__((constructor)) static void load(void)
{
    const char *name = getenv("SHIM_LIBRARY"), *said = getenv("SHIM_DELAY");
    if (getenv("SHIM_ENDS"))
        raise(SIGKILL);
    void *library = dlopen(name ? name : "libmvtgate.so.0", RTLD_NOW | RTLD_LOCAL);
    *(void **)&real_check = found(library, "mvtgate_check");
    *(void **)&real_check_quickly = found(library, "mvtgate_check_quickly");
    *(void **)&real_faults = found(library, "mvtgate_faults");
    *(void **)&real_faults_quickly = found(library, "mvtgate_faults_quickly");
    *(void **)&real_mend = found(library, "mvtgate_mend");
    *(void **)&real_confirm = found(library, "mvtgate_confirm");
    *(void **)&real_dump = found(library, "mvtgate_dump");
    *(void **)&real_advise = found(library, "mvtgate_advise");
    *(void **)&real_version = found(library, "mvtgate_version");
    delay = said ? (useconds_t)atol(said) : 0;
    gate = getenv("SHIM_GATE");
    if (getenv("SHIM_FREE"))
        free_tiles = atol(getenv("SHIM_FREE"));
}

static int ends_with(const uint8_t *tile, size_t length, const char *mark)
{
    return length >= MARK && !memcmp(tile + length - MARK, mark, MARK);
}

/* The length without a mark, each of which begins with the same bytes. */
static size_t unmarked(const uint8_t *tile, size_t length)
{
    return length >= MARK && !memcmp(tile + length - MARK, "\xff\xff!!", 4) ? length - MARK : length;
}

static void wait_at_gate(void)
{
    char name[4096];
    if (!gate || !access(gate, F_OK))
        return;
    snprintf(name, sizeof name, "%s.waiting", gate);
    FILE *waiting = fopen(name, "a");
    if (waiting) {
        fprintf(waiting, "%d\n", (int)getpid());
        fclose(waiting);
    }
    while (access(gate, F_OK))
        usleep(5000);
}

static int judge(Judge *real, uint32_t profile, const uint8_t *tile, size_t length, uint8_t *text, size_t room,
                 size_t *text_length)
{
    if (delay)
        usleep(delay);
    int is_free = free_tiles < 0 || atomic_fetch_add(&judged, 1) < free_tiles;
    if (!is_free || ends_with(tile, length, "\xff\xff!!gate"))
        wait_at_gate();
    if (ends_with(tile, length, "\xff\xff!!kill"))
        raise(SIGKILL);
    if (ends_with(tile, length, "\xff\xff!!full")) {
        *text_length = 0;
        return NO_MEMORY;
    }
    return real(profile, tile, unmarked(tile, length), text, room, text_length);
}

int mvtgate_check(uint32_t profile, const uint8_t *tile, size_t length, uint8_t *text, size_t room, size_t *text_length)
{
    return judge(real_check, profile, tile, length, text, room, text_length);
}

int mvtgate_check_quickly(uint32_t profile, const uint8_t *tile, size_t length, uint8_t *text, size_t room, size_t *text_length)
{
    return judge(real_check_quickly, profile, tile, length, text, room, text_length);
}

int mvtgate_faults(uint32_t profile, const uint8_t *tile, size_t length, uint8_t *text, size_t room, size_t *text_length)
{
    return judge(real_faults, profile, tile, length, text, room, text_length);
}

int mvtgate_faults_quickly(uint32_t profile, const uint8_t *tile, size_t length, uint8_t *text, size_t room, size_t *text_length)
{
    return judge(real_faults_quickly, profile, tile, length, text, room, text_length);
}

int mvtgate_mend(uint32_t profile, uint32_t drop, const uint8_t *tile, size_t length, uint8_t *out, size_t out_room,
                 size_t *out_length, uint8_t *report, size_t report_room, size_t *report_length)
{
    return real_mend(profile, drop, tile, unmarked(tile, length), out, out_room, out_length, report, report_room, report_length);
}

int mvtgate_confirm(uint32_t profile, const uint8_t *tile, size_t length, const uint8_t *text, size_t text_length)
{
    if (ends_with(tile, length, "\xff\xff!!conf"))
        raise(SIGKILL);
    if (ends_with(tile, length, "\xff\xff!!deny"))
        return NOT_CONFIRMED;
    if (ends_with(tile, length, "\xff\xff!!slow"))
        wait_at_gate();
    return real_confirm(profile, tile, unmarked(tile, length), text, text_length);
}

int mvtgate_dump(const uint8_t *tile, size_t length, uint8_t *text, size_t room, size_t *text_length)
{
    return real_dump(tile, unmarked(tile, length), text, room, text_length);
}

int mvtgate_advise(const uint8_t *tile, size_t length, uint8_t *text, size_t room, size_t *text_length)
{
    if (ends_with(tile, length, "\xff\xff!!advi")) {
        *text_length = 0;
        return NO_MEMORY;
    }
    return real_advise(tile, unmarked(tile, length), text, room, text_length);
}

uint32_t mvtgate_version(void)
{
    return real_version();
}

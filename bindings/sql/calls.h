/* What the extensions of both databases ask of the library: within bounds, and with rooms that grow where a text is longer. */
#ifndef MVTGATE_SQL_CALLS_H
#define MVTGATE_SQL_CALLS_H

#include <mvtgate.h>
#include <stddef.h>
#include <stdint.h>

/* Nothing interrupts a call, so what it may take is bounded, in bytes. Any tile of 64 MiB is judged in about a minute, and one of
 * 1 MiB is mended by FEATURE in half a minute, whose time may grow as the square of the length. */
enum { LONGEST_TILE = 64 << 20, LONGEST_MENDED_BY_FEATURE = 1 << 20 };

/* A further status of sql_mend: the tile isn't valid, and too long to be mended by FEATURE. */
enum { SQL_TOO_LONG = 100 };

/* Memory of the database, which each extension defines: NULL where it is refused. */
void *sql_take(size_t size);
void sql_give_back(void *block);

/* Bytes that are read. There is an address even of no bytes. */
typedef struct {
    const uint8_t *bytes;
    size_t length;
} Bytes;

/* Bytes that a call wrote: `length` of them behind the first `front` of the block, and a zero byte after them. Where the call didn't
 * answer as it says, the block is NULL, and nothing is to be given back. */
typedef struct {
    uint8_t *block;
    size_t front, length;
} Written;

static inline char *text_of(const Written *it)
{
    return (char *)it->block + it->front;
}

/* The number of a profile, or -1 where none has the name. */
int sql_profile(const char *name, size_t length);

/* The quick verdict, which by POLYGON is that of mvtgate_check. After MVTGATE_FAULT the text of the fault is there, with a zero byte
 * behind it. */
int sql_check(int profile, Bytes tile, char text[MVTGATE_TEXT_ROOM + 1]);

/* The quick list: after MVTGATE_FAULT a line for each fault, each with its end. */
int sql_faults(int profile, Bytes tile, Written *lines);

/* What the tile holds, or its first wire fault: a text after MVTGATE_TEXT and MVTGATE_FAULT. */
int sql_dump(Bytes tile, Written *text);

/* Mends the tile. After MVTGATE_MENDED there are the new tile, behind as many bytes as `out->front` was, and the report; after
 * MVTGATE_FAULT the text of the fault for which it is refused is in place of the report. */
int sql_mend(int profile, int drop, Bytes tile, Written *out, Written *report);

/* Whether a text is that of a fault, whichever tile may have it: MVTGATE_NOT_CONFIRMED where it is one, or what mvtgate_confirm
 * answers where it isn't. */
int sql_is_fault(Bytes text);

/* What is said where a text is no fault. */
#define SQL_NO_FAULT "the JSON is no fault as mvt_fault() answers it"

#endif

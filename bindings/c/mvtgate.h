/* mvtgate: judges Mapbox vector tiles in the process (Mapbox Vector Tile Specification 2.1). For C and C++.
 *
 * A tile is its uncompressed bytes, of any content and any length: gunzip it first. A text is bytes of UTF-8 without a zero
 * byte after it. (Of a polygon, by FEATURE of a feature, of 2^32 vertices or more, so of a tile above 8.5 GB,
 * MVTGATE_NO_MEMORY is answered.) What the functions do is proved, as far as the caller keeps to these rules, which nothing
 * checks:
 *
 *  - No pointer is null, also where its length is 0: give the address of any byte.
 *  - Each pointer to bytes has as many as its length says, and each length is below 2^63.
 *  - The parts that are written, such as `text` and `text_length`, overlap neither each other nor what is read. During the
 *    call no other thread uses them, and none changes what is read.
 *  - Each pointer to a length, such as `text_length`, is aligned as a size_t is.
 *  - The processor is an x86-64 of level v2 or above (with SSE4.2; any since about 2010).
 *
 * The functions keep nothing from one call to the next, so threads may call them at the same time. They take memory by the
 * process's malloc and realloc, and free it before they return. So don't call them in a signal handler, or in a child of
 * fork where the parent had threads. The stack is not proved: 128 KB were enough for each call that was tried.
 *
 * docs/FAULTS.md of the repository lists the faults with their codes and texts. */
#ifndef MVTGATE_H
#define MVTGATE_H

#include <stddef.h>
#include <stdint.h>

#ifdef __cplusplus
extern "C" {
#endif

/* What the polygons of a feature are held against. POLYGON checks each by itself: its rings neither cross nor touch, and
 * its holes are inside it and not inside each other. FEATURE asks also that the polygons of one feature neither cross nor
 * touch, and lie in each other only in a hole. */
#define MVTGATE_POLYGON 0
#define MVTGATE_FEATURE 1

/* In bytes: no text of a fault is longer. */
#define MVTGATE_TEXT_ROOM 384

/* What the functions return: one set of numbers for all. From 2 on they aren't the program's exit statuses. */
enum {
    MVTGATE_VALID = 0,         /* check, faults, mend: the tile is valid */
    MVTGATE_CONFIRMED = 0,     /* confirm: the fault is true of the tile */
    MVTGATE_TEXT = 0,          /* dump, advise: the text is written */
    MVTGATE_FAULT = 1,         /* check, dump, advise, mend: the text of a fault is written; faults: the lines of all faults */
    MVTGATE_NOT_CONFIRMED = 1, /* confirm: the fault is not true of the tile */
    MVTGATE_NO_MEMORY = 2,     /* memory was refused */
    MVTGATE_NO_ROOM = 3,       /* all but confirm: what is to be written is longer than its room */
    MVTGATE_NO_PROFILE = 4,    /* check, faults, confirm, mend: no profile has this number */
    MVTGATE_NOT_JSON = 5,      /* confirm: the text is no JSON */
    MVTGATE_NOT_A_FAULT = 6,   /* confirm: the text is JSON, and no fault */
    MVTGATE_FAULT_RANGE = 7,   /* confirm: the text is a fault with a number out of range */
    MVTGATE_MENDED = 8         /* mend: a valid tile and the report are written */
};

/* Judges a tile by a profile.
 *
 * MVTGATE_VALID       the tile is valid. *text_length is 0.
 * MVTGATE_FAULT       it is not. The text of its first fault is at the front of `text`, as the program's `check` writes it
 *                     but without the line's end, and *text_length is its length.
 * MVTGATE_NO_ROOM     it is not, and its fault's text is longer than text_room. *text_length is the length that is wanted.
 *                     This doesn't come where text_room is MVTGATE_TEXT_ROOM or more.
 * MVTGATE_NO_MEMORY, MVTGATE_NO_PROFILE   *text_length is 0.
 *
 * Nothing else is written: in `text` not the bytes after the fault's text, and where that isn't written, none. */
int mvtgate_check(uint32_t profile, const uint8_t *tile, size_t tile_length, uint8_t *text, size_t text_room,
                  size_t *text_length);

/* The same in n log n by both profiles, whatever the tile, for whoever judges tiles of others. By FEATURE mvtgate_check can
 * take the vertices squared of a feature of whose polygons edges meet. This one may name any meeting in it, in place of its
 * first fault. It finds the same tiles valid, its fault is true, and no true fault is of an earlier layer or feature. By
 * POLYGON its answer is that of mvtgate_check. */
int mvtgate_check_quickly(uint32_t profile, const uint8_t *tile, size_t tile_length, uint8_t *text, size_t text_room,
                          size_t *text_length);

/* Lists the faults of a tile by a profile: of each layer with a fault of its version or its name the first one, and of each
 * feature with any fault the first one. Each has a line, as the program's `check --all` writes it, with its end ("\n"); without
 * that it is a text for mvtgate_confirm. The first line is the fault of mvtgate_check. Bytes that are no tile have one line.
 *
 * MVTGATE_VALID       the tile is valid. *text_length is 0.
 * MVTGATE_FAULT       it is not. The lines are at the front of `text`, and *text_length is their length together.
 * MVTGATE_NO_ROOM     it is not, and the lines are longer than text_room. *text_length is the length that is wanted; call again
 *                     with as much.
 * MVTGATE_NO_MEMORY, MVTGATE_NO_PROFILE   *text_length is 0.
 *
 * Nothing else is written, as by mvtgate_check. */
int mvtgate_faults(uint32_t profile, const uint8_t *tile, size_t tile_length, uint8_t *text, size_t text_room,
                   size_t *text_length);

/* The same list with the fault of mvtgate_check_quickly for each feature, in the time of that call. */
int mvtgate_faults_quickly(uint32_t profile, const uint8_t *tile, size_t tile_length, uint8_t *text, size_t text_room,
                           size_t *text_length);

/* Mends a tile by a profile: where only polygons break the rules (501 to 507, and 402 or 406 of a feature of polygons), it writes
 * a valid tile in which all else is byte for byte as it was. Each vertex of a mended feature is within 2 units of one of its old
 * edges, along both axes. Where `drop` isn't 0, features that can't be mended are left out; so a tile with no other faults is
 * never refused. By FEATURE this can take the square of the vertices, also after a quick check: bound the tile's length.
 *
 * MVTGATE_VALID       the tile is valid, and the caller has its bytes: nothing is written. Both lengths are 0.
 * MVTGATE_MENDED      it is not. A valid tile is at the front of `out`, and *out_length is its length. The report, JSON as the
 *                     program's `mend` writes it but without the line's end, is at the front of `report`, and *report_length
 *                     is its length. It says what became of each feature that had a fault.
 * MVTGATE_FAULT       it is not, and is refused. The text of the fault for which it is refused, as by mvtgate_check, is at the
 *                     front of `report`, and *report_length is its length. *out_length is 0.
 * MVTGATE_NO_ROOM     it is not, and what is to be written into one of the rooms is longer than that. *out_length and
 *                     *report_length are the lengths that are wanted; call again with as much. Where the tile is refused
 *                     *out_length is 0; with MVTGATE_TEXT_ROOM for the report that doesn't come.
 * MVTGATE_NO_MEMORY, MVTGATE_NO_PROFILE   both lengths are 0.
 *
 * Nothing else is written, as by mvtgate_check: with any other status but MVTGATE_MENDED nothing at all in `out`. */
int mvtgate_mend(uint32_t profile, uint32_t drop, const uint8_t *tile, size_t tile_length, uint8_t *out, size_t out_room,
                 size_t *out_length, uint8_t *report, size_t report_room, size_t *report_length);

/* Whether the fault of a text is true of a tile by a profile. The text is JSON of UTF-8, with its members in any order and
 * with any space. This is a separate checker, which goes over the tile by itself. It writes nothing.
 *
 * MVTGATE_CONFIRMED, MVTGATE_NOT_CONFIRMED   the fault is true of the tile, or it is not.
 * MVTGATE_NO_MEMORY, MVTGATE_NO_PROFILE, MVTGATE_NOT_JSON, MVTGATE_NOT_A_FAULT, MVTGATE_FAULT_RANGE */
int mvtgate_confirm(uint32_t profile, const uint8_t *tile, size_t tile_length, const uint8_t *text, size_t text_length);

/* Writes what a tile holds as a JSON text, that of the program's `dump` without the line's end.
 *
 * MVTGATE_TEXT        the text is at the front of `text`, and *text_length is its length.
 * MVTGATE_FAULT       the bytes are no tile. The text of their first wire fault is there instead, with its length.
 * MVTGATE_NO_ROOM     the text, of either kind, is longer than text_room. *text_length is the length that is wanted; call
 *                     again with as much.
 * MVTGATE_NO_MEMORY   *text_length is 0.
 *
 * Nothing else is written, as by mvtgate_check. */
int mvtgate_dump(const uint8_t *tile, size_t tile_length, uint8_t *text, size_t text_room, size_t *text_length);

/* Writes what may be mistakes in a tile, though no rule forbids it, as a JSON text {"advice":[..]}: the second line of the
 * program's `check --advice` without the line's end. It is written and returned as by mvtgate_dump. */
int mvtgate_advise(const uint8_t *tile, size_t tile_length, uint8_t *text, size_t text_room, size_t *text_length);

/* The library's version: 10000 times the major number, 100 times the minor one, and the patch number. */
uint32_t mvtgate_version(void);

#ifdef __cplusplus
}
#endif

#endif

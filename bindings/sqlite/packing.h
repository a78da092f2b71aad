/* Tiles as MBTiles files keep them: packed by gzip, by zlib, or as they are. */
#ifndef MVTGATE_SQLITE_PACKING_H
#define MVTGATE_SQLITE_PACKING_H

#include "calls.h"

typedef enum { PLAIN, BY_GZIP, BY_ZLIB } Packing;

/* By their first bytes. What begins so and isn't packed is told by unpack. */
Packing packing_of(Bytes stored);

typedef enum { UNPACKED, NOT_PACKED, TOO_LONG, NO_MEMORY } Unpacking;

/* Unpacks bytes into memory that is to be given back. NOT_PACKED: they aren't one whole stream and nothing else. TOO_LONG: there are
 * more than LONGEST_TILE bytes in them. */
Unpacking unpack(Bytes stored, Packing packing, Written *tile);

/* Packs bytes. False where memory was refused. */
int pack(Bytes tile, Packing packing, Written *stored);

#endif

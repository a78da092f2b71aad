/* Values of the database, as the gate takes them, and what is said where it doesn't. */
#ifndef MVTGATE_SQLITE_VALUES_H
#define MVTGATE_SQLITE_VALUES_H

#include <sqlite3ext.h>

#include "calls.h"
#include "explain.h"
#include "packing.h"

/* A tile of a value: its bytes, and what was unpacked for it, which is to be freed by free_tile. */
typedef struct {
    Bytes bytes;
    Packing packing;
    Written unpacked;
} Tile;

/* What is wrong, by a code of SQLite and a text, which is NULL where all is well. */
typedef struct {
    int code;
    const char *text;
} Problem;

/* Reads a tile: a blob, or a text by its bytes, packed or not. What begins as if it were packed, and isn't one whole stream, is taken
 * as it is. */
Problem read_tile(sqlite3_value *value, Tile *tile);
void free_tile(Tile *tile);

Problem read_profile(sqlite3_value *value, int *profile);

/* What is wrong where the library answered neither of these statuses. */
Problem problem_of(int status, int one, int other);

/* Explains the fault of a text. */
Problem explain_text(Bytes text, Explanation *out);

#endif

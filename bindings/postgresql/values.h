/* Values of the database, as the gate takes and gives them. Each function here ends the statement by an error where it can't do what
 * it says. */
#ifndef MVTGATE_POSTGRESQL_VALUES_H
#define MVTGATE_POSTGRESQL_VALUES_H

#include "postgres.h"

#include "fmgr.h"
#include "utils/jsonb.h"

#include "calls.h"

/* An argument that is a tile: its bytes, not packed, in memory. */
typedef struct {
    struct varlena *value;
    Bytes bytes;
} Tile;

/* Defines mvtgate.longest_tile, beyond which no tile is read. */
void define_longest_tile(void);

Tile tile_argument(FunctionCallInfo fcinfo, int number);

/* Gives back the memory of a tile that had to be unpacked. */
void free_tile(FunctionCallInfo fcinfo, int number, Tile tile);

/* The profile of an argument. */
int profile_argument(FunctionCallInfo fcinfo, int number);

/* A text of JSON in UTF-8, with a zero byte behind it, as a value. It is no longer than the longest tile. */
Datum jsonb_of(const char *text, size_t length);

/* A fault in words. */
Datum explanation_of(Jsonb *fault);

/* The fault of a value in UTF-8. */
Bytes text_of_jsonb(Jsonb *value);

/* Ends the statement where the library says that memory was refused, or another status than these two. */
void expect_status(int status, int one, int other);

/* Ends the statement where the value is no fault. */
void refuse_no_fault(void) pg_attribute_noreturn();

#endif

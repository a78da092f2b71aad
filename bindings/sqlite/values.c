#include "values.h"

#include <string.h>

SQLITE_EXTENSION_INIT3

static const Problem no_problem = {SQLITE_OK, NULL}, no_memory = {SQLITE_NOMEM, "out of memory"},
                     no_fault = {SQLITE_ERROR, SQL_NO_FAULT}, too_long = {SQLITE_TOOBIG, "a tile has at most 64 MiB, unpacked"};

void *sql_take(size_t size)
{
    return sqlite3_malloc64(size);
}

void sql_give_back(void *block)
{
    sqlite3_free(block);
}

Problem read_tile(sqlite3_value *value, Tile *tile)
{
    static const uint8_t nothing[1];
    int type = sqlite3_value_type(value);
    memset(tile, 0, sizeof *tile);
    if (type != SQLITE_BLOB && type != SQLITE_TEXT)
        return (Problem){SQLITE_ERROR, "a tile is a blob"};
    const uint8_t *bytes = sqlite3_value_blob(value);
    size_t length = (size_t)sqlite3_value_bytes(value);
    if (!bytes && length)
        return no_memory;
    tile->bytes = (Bytes){bytes ? bytes : nothing, length};
    tile->packing = packing_of(tile->bytes);
    if (tile->packing == PLAIN)
        return length > LONGEST_TILE ? too_long : no_problem;
    switch (unpack(tile->bytes, tile->packing, &tile->unpacked)) {
    case TOO_LONG:
        return too_long;
    case NO_MEMORY:
        return no_memory;
    case NOT_PACKED:
        tile->packing = PLAIN;
        return no_problem;
    default:
        tile->bytes = (Bytes){tile->unpacked.block, tile->unpacked.length};
        return no_problem;
    }
}

void free_tile(Tile *tile)
{
    sqlite3_free(tile->unpacked.block);
    tile->unpacked.block = NULL;
}

Problem read_profile(sqlite3_value *value, int *profile)
{
    const char *name = (const char *)sqlite3_value_text(value);
    if (!name)
        return no_memory;
    *profile = sql_profile(name, (size_t)sqlite3_value_bytes(value));
    return *profile < 0 ? (Problem){SQLITE_ERROR, "there is no such profile: it is 'polygon' or 'feature'"} : no_problem;
}

Problem problem_of(int status, int one, int other)
{
    if (status == one || status == other)
        return no_problem;
    switch (status) {
    case MVTGATE_NO_MEMORY:
        return no_memory;
    case MVTGATE_NOT_JSON:
    case MVTGATE_NOT_A_FAULT:
    case MVTGATE_FAULT_RANGE:
        return no_fault;
    case SQL_TOO_LONG:
        return (Problem){SQLITE_TOOBIG, "by the profile feature, tiles of at most 1 MiB are mended"};
    default:
        return (Problem){SQLITE_INTERNAL, "the library answered another status"};
    }
}

Problem explain_text(Bytes text, Explanation *out)
{
    Problem problem = problem_of(sql_is_fault(text), MVTGATE_NOT_CONFIRMED, MVTGATE_NOT_CONFIRMED);
    return problem.text || explain(text, out) ? problem : no_fault;
}

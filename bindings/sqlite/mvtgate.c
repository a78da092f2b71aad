/* The functions of the extension, and their registration. Each answers NULL where an argument is NULL. */
#include <string.h>

#include <sqlite3ext.h>

#include "calls.h"
#include "faults.h"
#include "values.h"

SQLITE_EXTENSION_INIT1

#ifndef SQLITE_RESULT_SUBTYPE
/* (asked for from SQLite 3.45 on, and passed over before) */
#define SQLITE_RESULT_SUBTYPE 0x001000000
#endif

/* Answers the problem, if there is one, and says so. */
static int has_problem(sqlite3_context *context, Problem problem)
{
    if (!problem.text)
        return 0;
    sqlite3_result_error(context, problem.text, -1);
    sqlite3_result_error_code(context, problem.code);
    return 1;
}

static int has_null(int count, sqlite3_value **argument)
{
    for (int at = 0; at < count; ++at)
        if (sqlite3_value_type(argument[at]) == SQLITE_NULL)
            return 1;
    return 0;
}

/* Reads a tile, and the profile where it is given. False where NULL or an error is answered. */
static int read_arguments(sqlite3_context *context, int count, sqlite3_value **argument, int profile_at, Tile *tile, int *profile)
{
    *profile = MVTGATE_POLYGON;
    if (has_null(count, argument))
        return 0;
    if (count > profile_at && has_problem(context, read_profile(argument[profile_at], profile)))
        return 0;
    return !has_problem(context, read_tile(argument[0], tile));
}

/* Answers a text of JSON, whose memory is SQLite's from here on. */
static void answer_json(sqlite3_context *context, Written *text)
{
    sqlite3_result_text64(context, text_of(text), text->length, sqlite3_free, SQLITE_UTF8);
    sqlite3_result_subtype(context, JSON_SUBTYPE);
}

/* The verdict. False where it is answered already. */
static int judge(sqlite3_context *context, int count, sqlite3_value **argument, char text[MVTGATE_TEXT_ROOM + 1], int *status)
{
    Tile tile;
    int profile;
    if (!read_arguments(context, count, argument, 1, &tile, &profile))
        return 0;
    *status = sql_check(profile, tile.bytes, text);
    free_tile(&tile);
    return !has_problem(context, problem_of(*status, MVTGATE_VALID, MVTGATE_FAULT));
}

static void mvt_is_valid(sqlite3_context *context, int count, sqlite3_value **argument)
{
    char text[MVTGATE_TEXT_ROOM + 1];
    int status;
    if (judge(context, count, argument, text, &status))
        sqlite3_result_int(context, status == MVTGATE_VALID);
}

static void mvt_fault(sqlite3_context *context, int count, sqlite3_value **argument)
{
    char text[MVTGATE_TEXT_ROOM + 1];
    int status;
    if (!judge(context, count, argument, text, &status) || status == MVTGATE_VALID)
        return;
    sqlite3_result_text(context, text, -1, SQLITE_TRANSIENT);
    sqlite3_result_subtype(context, JSON_SUBTYPE);
}

/* The text of an argument that is a fault. */
static Bytes fault_of(sqlite3_value *value)
{
    const char *text = (const char *)sqlite3_value_text(value);
    if (!text)
        return (Bytes){(const uint8_t *)"", 0};
    return (Bytes){(const uint8_t *)text, (size_t)sqlite3_value_bytes(value)};
}

static void mvt_confirm(sqlite3_context *context, int count, sqlite3_value **argument)
{
    Tile tile;
    int profile;
    if (!read_arguments(context, count, argument, 2, &tile, &profile))
        return;
    Bytes fault = fault_of(argument[1]);
    int status = mvtgate_confirm((uint32_t)profile, tile.bytes.bytes, tile.bytes.length, fault.bytes, fault.length);
    free_tile(&tile);
    if (!has_problem(context, problem_of(status, MVTGATE_CONFIRMED, MVTGATE_NOT_CONFIRMED)))
        sqlite3_result_int(context, status == MVTGATE_CONFIRMED);
}

static void mvt_explain(sqlite3_context *context, int count, sqlite3_value **argument)
{
    Explanation it;
    if (has_null(count, argument))
        return;
    if (!has_problem(context, explain_text(fault_of(argument[0]), &it)))
        sqlite3_result_text(context, it.text, (int)it.length, SQLITE_TRANSIENT);
}

static void mvt_dump(sqlite3_context *context, int count, sqlite3_value **argument)
{
    Tile tile;
    Written text;
    int profile;
    if (!read_arguments(context, count, argument, 1, &tile, &profile))
        return;
    int status = sql_dump(tile.bytes, &text);
    free_tile(&tile);
    if (!has_problem(context, problem_of(status, MVTGATE_TEXT, MVTGATE_FAULT)))
        answer_json(context, &text);
}

/* Mends the tile of the arguments. False where it is answered already. */
static int mend(sqlite3_context *context, int count, sqlite3_value **argument, Tile *tile, Written *out, Written *report,
                int *status)
{
    int profile, drop = count > 2 && sqlite3_value_int(argument[2]);
    if (!read_arguments(context, count, argument, 1, tile, &profile))
        return 0;
    out->front = 0;
    *status = sql_mend(profile, drop, tile->bytes, out, report);
    free_tile(tile);
    return *status == MVTGATE_MENDED || !has_problem(context, problem_of(*status, MVTGATE_VALID, MVTGATE_FAULT));
}

/* A mended tile, packed as the old one was. */
static void answer_tile(sqlite3_context *context, Packing packing, Written *tile)
{
    if (packing != PLAIN) {
        Written stored;
        int is_packed = pack((Bytes){tile->block, tile->length}, packing, &stored);
        sqlite3_free(tile->block);
        *tile = stored;
        if (!is_packed) {
            sqlite3_result_error_nomem(context);
            return;
        }
    }
    sqlite3_result_blob64(context, tile->block, tile->length, sqlite3_free);
}

static void refuse(sqlite3_context *context, const Written *fault)
{
    char *text = sqlite3_mprintf("the tile can't be mended: %s", text_of(fault));
    if (text)
        sqlite3_result_error(context, text, -1);
    else
        sqlite3_result_error_nomem(context);
    sqlite3_free(text);
}

static void mvt_mend(sqlite3_context *context, int count, sqlite3_value **argument)
{
    Tile tile;
    Written out, report;
    int status;
    if (!mend(context, count, argument, &tile, &out, &report, &status))
        return;
    if (status == MVTGATE_VALID)
        sqlite3_result_value(context, argument[0]);
    else if (status == MVTGATE_MENDED)
        answer_tile(context, tile.packing, &out);
    else
        refuse(context, &report);
    sqlite3_free(report.block);
}

static void mvt_mend_report(sqlite3_context *context, int count, sqlite3_value **argument)
{
    static const char nothing[] = "{\"changed\":[],\"ok\":true}";
    Tile tile;
    Written out, report;
    int status;
    if (!mend(context, count, argument, &tile, &out, &report, &status))
        return;
    sqlite3_free(out.block);
    if (status != MVTGATE_VALID) {
        answer_json(context, &report);
        return;
    }
    sqlite3_result_text(context, nothing, -1, SQLITE_STATIC);
    sqlite3_result_subtype(context, JSON_SUBTYPE);
}

typedef void Function(sqlite3_context *context, int count, sqlite3_value **argument);

/* With its least and its greatest number of arguments. */
static const struct {
    const char *name;
    int least, greatest;
    Function *function;
} functions[] = {
    {"mvt_is_valid", 1, 2, mvt_is_valid},       {"mvt_fault", 1, 2, mvt_fault}, {"mvt_confirm", 2, 3, mvt_confirm},
    {"mvt_explain", 1, 1, mvt_explain},         {"mvt_dump", 1, 1, mvt_dump},   {"mvt_mend", 1, 3, mvt_mend},
    {"mvt_mend_report", 1, 3, mvt_mend_report},
};

static int add_functions(sqlite3 *database)
{
    static const int flags = SQLITE_UTF8 | SQLITE_DETERMINISTIC | SQLITE_INNOCUOUS | SQLITE_RESULT_SUBTYPE;
    int status = SQLITE_OK;
    for (size_t at = 0; at < sizeof functions / sizeof *functions; ++at)
        for (int count = functions[at].least; count <= functions[at].greatest && status == SQLITE_OK; ++count)
            status = sqlite3_create_function_v2(database, functions[at].name, count, flags, NULL, functions[at].function, NULL,
                                                NULL, NULL);
    return status;
}

int sqlite3_mvtgate_init(sqlite3 *database, char **error, const sqlite3_api_routines *api);

int sqlite3_mvtgate_init(sqlite3 *database, char **error, const sqlite3_api_routines *api)
{
    (void)error;
    SQLITE_EXTENSION_INIT2(api);
    int status = add_functions(database);
    return status == SQLITE_OK ? sqlite3_create_module_v2(database, "mvt_faults", &faults_module, NULL, NULL) : status;
}

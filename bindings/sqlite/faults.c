#include "faults.h"

#include <string.h>

#include "calls.h"
#include "values.h"

SQLITE_EXTENSION_INIT3

/* The columns, of which a query gives the hidden ones as arguments. These have names that no table of tiles has, since a name among
 * the arguments of a query in brackets is first looked for here. */
enum { FAULT, TILE, PROFILE, COLUMNS };

/* What a plan says of a search, in bits: that the profile is given, and that the arguments are asked for as columns. */
enum { HAS_PROFILE = 1, SHOWS_ARGUMENTS = 2 };

/* A search: the lines of the faults, and the one that it is at. */
typedef struct {
    sqlite3_vtab_cursor base;
    Written lines;
    const char *line, *end;
    sqlite3_int64 number;
    sqlite3_value *arguments[COLUMNS];
} Search;

static int connect_table(sqlite3 *database, void *of, int count, const char *const *words, sqlite3_vtab **table, char **error)
{
    (void)of, (void)count, (void)words, (void)error;
    int status = sqlite3_declare_vtab(database, "CREATE TABLE faults(fault TEXT, mvt_tile HIDDEN, mvt_profile HIDDEN)");
    if (status != SQLITE_OK)
        return status;
    *table = sqlite3_malloc(sizeof **table);
    if (!*table)
        return SQLITE_NOMEM;
    memset(*table, 0, sizeof **table);
    return sqlite3_vtab_config(database, SQLITE_VTAB_INNOCUOUS);
}

static int disconnect_table(sqlite3_vtab *table)
{
    sqlite3_free(table);
    return SQLITE_OK;
}

/* By the column, the place of the constraint that gives it, or -1. False where one can't be used in this plan. */
static int find_arguments(const sqlite3_index_info *plan, int place[COLUMNS])
{
    int is_usable = 1;
    memset(place, -1, COLUMNS * sizeof *place);
    for (int at = 0; at < plan->nConstraint; ++at) {
        int column = plan->aConstraint[at].iColumn;
        if (column < TILE || plan->aConstraint[at].op != SQLITE_INDEX_CONSTRAINT_EQ)
            continue;
        if (plan->aConstraint[at].usable)
            place[column] = at;
        else
            is_usable = 0;
    }
    return is_usable;
}

static int plan_search(sqlite3_vtab *table, sqlite3_index_info *plan)
{
    int place[COLUMNS];
    if (!find_arguments(plan, place))
        return SQLITE_CONSTRAINT;
    if (place[TILE] < 0) {
        sqlite3_free(table->zErrMsg);
        table->zErrMsg = sqlite3_mprintf("mvt_faults is to be given a tile");
        return SQLITE_ERROR;
    }
    plan->idxNum = plan->colUsed & (1 << TILE | 1 << PROFILE) ? SHOWS_ARGUMENTS : 0;
    for (int column = TILE; column < COLUMNS; ++column)
        if (place[column] >= 0)
            plan->aConstraintUsage[place[column]] =
                (struct sqlite3_index_constraint_usage){.argvIndex = column - TILE + 1, .omit = 1};
    if (place[PROFILE] >= 0)
        plan->idxNum |= HAS_PROFILE;
    plan->estimatedCost = 1000;
    plan->estimatedRows = 10;
    return SQLITE_OK;
}

static int open_search(sqlite3_vtab *table, sqlite3_vtab_cursor **cursor)
{
    (void)table;
    Search *it = sqlite3_malloc(sizeof *it);
    if (!it)
        return SQLITE_NOMEM;
    memset(it, 0, sizeof *it);
    *cursor = &it->base;
    return SQLITE_OK;
}

static void empty(Search *it)
{
    sqlite3_free(it->lines.block);
    for (int column = 0; column < COLUMNS; ++column)
        sqlite3_value_free(it->arguments[column]);
    memset(&it->lines, 0, sizeof *it - offsetof(Search, lines));
}

static int close_search(sqlite3_vtab_cursor *cursor)
{
    empty((Search *)cursor);
    sqlite3_free(cursor);
    return SQLITE_OK;
}

/* The end of the line that the search is at. */
static void find_end(Search *it)
{
    it->end = it->line ? strchr(it->line, '\n') : NULL;
}

static Problem list_faults(Search *it, int profile, sqlite3_value *value)
{
    Tile tile;
    Problem problem = read_tile(value, &tile);
    if (problem.text)
        return problem;
    int status = sql_faults(profile, tile.bytes, &it->lines);
    free_tile(&tile);
    it->line = status == MVTGATE_FAULT ? text_of(&it->lines) : NULL;
    find_end(it);
    return problem_of(status, MVTGATE_VALID, MVTGATE_FAULT);
}

static int search(sqlite3_vtab_cursor *cursor, int plan, const char *text, int count, sqlite3_value **argument)
{
    (void)text;
    Search *it = (Search *)cursor;
    int profile = MVTGATE_POLYGON;
    Problem problem = {SQLITE_OK, NULL};
    empty(it);
    for (int at = 0; at < count; ++at)
        if (sqlite3_value_type(argument[at]) == SQLITE_NULL)
            return SQLITE_OK;
    if (plan & HAS_PROFILE)
        problem = read_profile(argument[1], &profile);
    for (int at = 0; at < count && plan & SHOWS_ARGUMENTS; ++at)
        if (!(it->arguments[TILE + at] = sqlite3_value_dup(argument[at])))
            return SQLITE_NOMEM;
    if (!problem.text)
        problem = list_faults(it, profile, argument[0]);
    if (problem.text) {
        sqlite3_free(cursor->pVtab->zErrMsg);
        cursor->pVtab->zErrMsg = sqlite3_mprintf("%s", problem.text);
    }
    return problem.code;
}

static int next_fault(sqlite3_vtab_cursor *cursor)
{
    Search *it = (Search *)cursor;
    it->line = it->end + 1;
    ++it->number;
    find_end(it);
    return SQLITE_OK;
}

static int is_at_end(sqlite3_vtab_cursor *cursor)
{
    return !((Search *)cursor)->end;
}

static int answer_column(sqlite3_vtab_cursor *cursor, sqlite3_context *context, int column)
{
    Search *it = (Search *)cursor;
    if (column == FAULT) {
        sqlite3_result_text64(context, it->line, (sqlite3_uint64)(it->end - it->line), SQLITE_TRANSIENT, SQLITE_UTF8);
        sqlite3_result_subtype(context, JSON_SUBTYPE);
    } else if (it->arguments[column])
        sqlite3_result_value(context, it->arguments[column]);
    return SQLITE_OK;
}

static int answer_number(sqlite3_vtab_cursor *cursor, sqlite3_int64 *number)
{
    *number = ((Search *)cursor)->number;
    return SQLITE_OK;
}

const sqlite3_module faults_module = {
    .xConnect = connect_table,
    .xDisconnect = disconnect_table,
    .xBestIndex = plan_search,
    .xOpen = open_search,
    .xClose = close_search,
    .xFilter = search,
    .xNext = next_fault,
    .xEof = is_at_end,
    .xColumn = answer_column,
    .xRowid = answer_number,
};

/* Values of the database, as the gate takes and gives them. */
#include "values.h"

#include <limits.h>

#include "access/detoast.h"
#include "mb/pg_wchar.h"
#include "utils/builtins.h"
#include "utils/guc.h"

#include "explain.h"

/* Memory of the database, which goes with the memory context. */

void *sql_take(size_t size)
{
    return palloc_extended(size, MCXT_ALLOC_HUGE | MCXT_ALLOC_NO_OOM);
}

void sql_give_back(void *block)
{
    pfree(block);
}

void expect_status(int status, int one, int other)
{
    if (status == one || status == other)
        return;
    if (status == MVTGATE_NO_MEMORY)
        ereport(ERROR,
                (errcode(ERRCODE_OUT_OF_MEMORY), errmsg("out of memory"), errdetail("mvtgate was refused memory for a tile.")));
    elog(ERROR, "mvtgate answered the status %d", status);
}

/* Tiles */

static int longest_tile = LONGEST_TILE;

void define_longest_tile(void)
{
    DefineCustomIntVariable("mvtgate.longest_tile", "The length of the longest tile that is read.",
                            "Nothing interrupts the call of a function on one tile, so this bounds the time that it may take.",
                            &longest_tile, LONGEST_TILE, 0, LONGEST_TILE, PGC_SUSET, GUC_UNIT_BYTE, NULL, NULL, NULL);
    MarkGUCPrefixReserved("mvtgate");
}

Tile tile_argument(FunctionCallInfo fcinfo, int number)
{
    /* (asked before the value is unpacked) */
    Size length = toast_raw_datum_size(PG_GETARG_DATUM(number)) - VARHDRSZ;
    if (length > (Size)longest_tile)
        ereport(ERROR, (errcode(ERRCODE_PROGRAM_LIMIT_EXCEEDED), errmsg("a tile of %zu bytes is too long", length),
                        errdetail("The parameter mvtgate.longest_tile is %d bytes.", longest_tile)));
    bytea *value = PG_GETARG_BYTEA_PP(number);
    Tile tile = {value, {(const uint8_t *)VARDATA_ANY(value), VARSIZE_ANY_EXHDR(value)}};
    return tile;
}

void free_tile(FunctionCallInfo fcinfo, int number, Tile tile)
{
    PG_FREE_IF_COPY(tile.value, number);
}

int profile_argument(FunctionCallInfo fcinfo, int number)
{
    text *name = PG_GETARG_TEXT_PP(number);
    int profile = sql_profile(VARDATA_ANY(name), VARSIZE_ANY_EXHDR(name));
    if (profile < 0)
        ereport(ERROR, (errcode(ERRCODE_INVALID_PARAMETER_VALUE), errmsg("there is no profile \"%s\"", text_to_cstring(name)),
                        errhint("The profiles are polygon and feature.")));
    return profile;
}

/* JSON */

Datum jsonb_of(const char *text, size_t length)
{
    /* (jsonb takes up to 31 times its text while it is made, and nothing interrupts that) */
    if (length > LONGEST_TILE)
        ereport(ERROR, (errcode(ERRCODE_PROGRAM_LIMIT_EXCEEDED), errmsg("a text of %zu bytes is too long for jsonb", length),
                        errdetail("A text of at most %d bytes is taken.", LONGEST_TILE)));
    char *its = pg_any_to_server(text, (int)length, PG_UTF8);
    Datum value = DirectFunctionCall1(jsonb_in, CStringGetDatum(its));
    if (its != text)
        pfree(its);
    return value;
}

Bytes text_of_jsonb(Jsonb *value)
{
    char *its = JsonbToCString(NULL, &value->root, VARSIZE(value));
    char *text = pg_server_to_any(its, (int)strlen(its), PG_UTF8);
    Bytes bytes = {(const uint8_t *)text, strlen(text)};
    return bytes;
}

void refuse_no_fault(void)
{
    ereport(ERROR, (errcode(ERRCODE_INVALID_PARAMETER_VALUE), errmsg(SQL_NO_FAULT)));
}

Datum explanation_of(Jsonb *fault)
{
    Explanation *it = palloc(sizeof *it);
    Bytes text = text_of_jsonb(fault);
    int status = sql_is_fault(text);
    if (status == MVTGATE_NO_MEMORY)
        expect_status(status, MVTGATE_NOT_CONFIRMED, MVTGATE_NOT_CONFIRMED);
    if (status != MVTGATE_NOT_CONFIRMED || !explain(text, it))
        refuse_no_fault();
    return PointerGetDatum(cstring_to_text_with_len(it->text, (int)it->length));
}

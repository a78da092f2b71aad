/* The functions that mend. */
#include "postgres.h"

#include "fmgr.h"
#include "miscadmin.h"
#include "utils/memutils.h"

#include "calls.h"
#include "values.h"

/* What became of the tile of the first argument, by the profile and the boolean behind it. The mended tile has room for the header of
 * a value in front. */
static int mended(FunctionCallInfo fcinfo, Tile tile, Written *out, Written *report)
{
    int profile = profile_argument(fcinfo, 1);
    out->front = VARHDRSZ;
    CHECK_FOR_INTERRUPTS();
    int status = sql_mend(profile, PG_GETARG_BOOL(2), tile.bytes, out, report);
    CHECK_FOR_INTERRUPTS();
    if (status == SQL_TOO_LONG)
        ereport(ERROR, (errcode(ERRCODE_PROGRAM_LIMIT_EXCEEDED),
                        errmsg("a tile of %zu bytes is too long to be mended", tile.bytes.length),
                        errdetail("By the profile feature, tiles of at most %d bytes are mended.", LONGEST_MENDED_BY_FEATURE)));
    if (status != MVTGATE_MENDED)
        expect_status(status, MVTGATE_VALID, MVTGATE_FAULT);
    return status;
}

static void refuse(const char *fault) pg_attribute_noreturn();

/* The detail is the fault, so that a handler can read it. */
static void refuse(const char *fault)
{
    ereport(ERROR,
            (errcode(ERRCODE_INVALID_BINARY_REPRESENTATION), errmsg("the tile can't be mended"), errdetail_internal("%s", fault),
             errhint("mvt_explain() of this fault says what to do. With drop => true, features whose polygons can't be mended "
                     "are left out.")));
}

PG_FUNCTION_INFO_V1(mvt_mend);

Datum mvt_mend(PG_FUNCTION_ARGS)
{
    Tile tile = tile_argument(fcinfo, 0);
    Written out, report;
    int status = mended(fcinfo, tile, &out, &report);
    if (status == MVTGATE_FAULT)
        refuse(text_of(&report));
    if (status == MVTGATE_VALID)
        PG_RETURN_BYTEA_P(tile.value);
    sql_give_back(report.block);
    free_tile(fcinfo, 0, tile);
    if (out.length > MaxAllocSize - VARHDRSZ)
        ereport(ERROR, (errcode(ERRCODE_PROGRAM_LIMIT_EXCEEDED), errmsg("a mended tile of %zu bytes is too long", out.length)));
    SET_VARSIZE(out.block, VARHDRSZ + out.length);
    PG_RETURN_BYTEA_P(out.block);
}

PG_FUNCTION_INFO_V1(mvt_mend_report);

Datum mvt_mend_report(PG_FUNCTION_ARGS)
{
    static const char nothing[] = "{\"changed\":[],\"ok\":true}";
    Tile tile = tile_argument(fcinfo, 0);
    Written out, report;
    int status = mended(fcinfo, tile, &out, &report);
    free_tile(fcinfo, 0, tile);
    if (status == MVTGATE_VALID)
        PG_RETURN_DATUM(jsonb_of(nothing, strlen(nothing)));
    if (status == MVTGATE_MENDED)
        sql_give_back(out.block);
    Datum value = jsonb_of(text_of(&report), report.length);
    sql_give_back(report.block);
    PG_RETURN_DATUM(value);
}

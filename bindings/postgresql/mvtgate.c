/* The functions that judge: what each does stands in mvtgate.sql. A request to end the statement is seen before each call of the
 * library and after it, since none interrupts one. */
#include "postgres.h"

#include "fmgr.h"
#include "funcapi.h"
#include "miscadmin.h"
#include "utils/builtins.h"
#include "utils/jsonb.h"

#include "calls.h"
#include "values.h"

PG_MODULE_MAGIC;

void _PG_init(void);

void _PG_init(void)
{
    define_longest_tile();
}

/* The verdict on the first argument by the profile that is the second one. */
static int judged(FunctionCallInfo fcinfo, char text[MVTGATE_TEXT_ROOM + 1])
{
    int profile = profile_argument(fcinfo, 1);
    Tile tile = tile_argument(fcinfo, 0);
    CHECK_FOR_INTERRUPTS();
    int status = sql_check(profile, tile.bytes, text);
    CHECK_FOR_INTERRUPTS();
    expect_status(status, MVTGATE_VALID, MVTGATE_FAULT);
    free_tile(fcinfo, 0, tile);
    return status;
}

PG_FUNCTION_INFO_V1(mvt_is_valid);

Datum mvt_is_valid(PG_FUNCTION_ARGS)
{
    char text[MVTGATE_TEXT_ROOM + 1];
    PG_RETURN_BOOL(judged(fcinfo, text) == MVTGATE_VALID);
}

PG_FUNCTION_INFO_V1(mvt_fault);

Datum mvt_fault(PG_FUNCTION_ARGS)
{
    char text[MVTGATE_TEXT_ROOM + 1];
    if (judged(fcinfo, text) == MVTGATE_VALID)
        PG_RETURN_NULL();
    PG_RETURN_DATUM(jsonb_of(text, strlen(text)));
}

/* The lines of the faults that are left. */
typedef struct {
    char *at;
} Lines;

static Lines *lines_of(FunctionCallInfo fcinfo)
{
    int profile = profile_argument(fcinfo, 1);
    Tile tile = tile_argument(fcinfo, 0);
    Lines *lines = palloc(sizeof *lines);
    Written written;
    CHECK_FOR_INTERRUPTS();
    int status = sql_faults(profile, tile.bytes, &written);
    CHECK_FOR_INTERRUPTS();
    expect_status(status, MVTGATE_VALID, MVTGATE_FAULT);
    free_tile(fcinfo, 0, tile);
    lines->at = status == MVTGATE_FAULT ? text_of(&written) : NULL;
    return lines;
}

/* The next line without its end, or NULL. */
static char *next_line(Lines *lines)
{
    char *line = lines->at;
    if (!line || !*line)
        return NULL;
    lines->at = strchr(line, '\n');
    *lines->at++ = 0;
    return line;
}

PG_FUNCTION_INFO_V1(mvt_faults);

Datum mvt_faults(PG_FUNCTION_ARGS)
{
    FuncCallContext *context;
    char *line;
    if (SRF_IS_FIRSTCALL()) {
        context = SRF_FIRSTCALL_INIT();
        MemoryContext before = MemoryContextSwitchTo(context->multi_call_memory_ctx);
        context->user_fctx = lines_of(fcinfo);
        MemoryContextSwitchTo(before);
    }
    context = SRF_PERCALL_SETUP();
    line = next_line(context->user_fctx);
    if (!line)
        SRF_RETURN_DONE(context);
    SRF_RETURN_NEXT(context, jsonb_of(line, strlen(line)));
}

PG_FUNCTION_INFO_V1(mvt_confirm);

Datum mvt_confirm(PG_FUNCTION_ARGS)
{
    int profile = profile_argument(fcinfo, 2);
    Tile tile = tile_argument(fcinfo, 0);
    Bytes fault = text_of_jsonb(PG_GETARG_JSONB_P(1));
    CHECK_FOR_INTERRUPTS();
    int status = mvtgate_confirm((uint32_t)profile, tile.bytes.bytes, tile.bytes.length, fault.bytes, fault.length);
    CHECK_FOR_INTERRUPTS();
    if (status == MVTGATE_NOT_JSON || status == MVTGATE_NOT_A_FAULT || status == MVTGATE_FAULT_RANGE)
        refuse_no_fault();
    expect_status(status, MVTGATE_CONFIRMED, MVTGATE_NOT_CONFIRMED);
    free_tile(fcinfo, 0, tile);
    PG_RETURN_BOOL(status == MVTGATE_CONFIRMED);
}

PG_FUNCTION_INFO_V1(mvt_explain);

Datum mvt_explain(PG_FUNCTION_ARGS)
{
    PG_RETURN_DATUM(explanation_of(PG_GETARG_JSONB_P(0)));
}

PG_FUNCTION_INFO_V1(mvt_dump);

Datum mvt_dump(PG_FUNCTION_ARGS)
{
    Tile tile = tile_argument(fcinfo, 0);
    Written text;
    CHECK_FOR_INTERRUPTS();
    int status = sql_dump(tile.bytes, &text);
    CHECK_FOR_INTERRUPTS();
    expect_status(status, MVTGATE_TEXT, MVTGATE_FAULT);
    free_tile(fcinfo, 0, tile);
    Datum value = jsonb_of(text_of(&text), text.length);
    sql_give_back(text.block);
    PG_RETURN_DATUM(value);
}

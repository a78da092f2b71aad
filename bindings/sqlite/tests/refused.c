/* refused EXTENSION FILE..: gives each file, a tile, to every function of the extension, and refuses each request for SQLite's memory
 * in turn: the statement answers that, or the right thing, and no memory is left. It prints how many requests were refused. */
#include <sqlite3.h>
#include <stdio.h>
#include <stdlib.h>
#include <string.h>

static const char *const queries[] = {
    "SELECT mvt_is_valid(?1)",
    "SELECT mvt_fault(?1, 'feature')",
    "SELECT group_concat(fault, ' ') FROM mvt_faults(?1)",
    "SELECT hex(mvt_tile) || mvt_profile || fault FROM mvt_faults(?1, 'feature')",
    "SELECT mvt_confirm(?1, mvt_fault(?1))",
    "SELECT mvt_explain(mvt_fault(?1))",
    "SELECT hex(mvt_mend(?1, 'polygon', 1))",
    "SELECT mvt_mend_report(?1, 'feature', 0)",
    "SELECT mvt_dump(?1)",
};
enum { QUERIES = sizeof queries / sizeof *queries };

static sqlite3_mem_methods own;
static long granted = -1, refused;

static int is_refused(void)
{
    if (granted < 0 || granted-- != 0)
        return 0;
    ++refused;
    return 1;
}

static void *take(int size)
{
    return is_refused() ? NULL : own.xMalloc(size);
}

static void *take_again(void *block, int size)
{
    return is_refused() ? NULL : own.xRealloc(block, size);
}

static void require(int holds, const char *what)
{
    if (holds)
        return;
    puts(what);
    exit(1);
}

/* The status of a query on a tile, and the text of its first row. */
static int ask(sqlite3 *database, const char *query, const void *tile, int length, char **text)
{
    sqlite3_stmt *rows;
    *text = NULL;
    int status = sqlite3_prepare_v2(database, query, -1, &rows, NULL);
    if (status != SQLITE_OK)
        return status;
    sqlite3_bind_blob(rows, 1, tile, length, SQLITE_STATIC);
    status = sqlite3_step(rows);
    if (status == SQLITE_ROW) {
        const char *told = (const char *)sqlite3_column_text(rows, 0);
        /* (a text that can't be had for want of memory is none) */
        if (!told && sqlite3_errcode(database) == SQLITE_NOMEM)
            status = SQLITE_NOMEM;
        *text = told ? strdup(told) : NULL;
    }
    sqlite3_finalize(rows);
    return status;
}

static void refuse(sqlite3 *database, const char *query, const void *tile, int length)
{
    char *right, *text;
    int wanted = ask(database, query, tile, length, &right);
    for (long before = 0, count = refused - 1; count != refused; ++before) {
        count = refused;
        granted = before;
        int status = ask(database, query, tile, length, &text);
        granted = -1;
        int is_same = status == wanted && (text && right ? strcmp(text, right) == 0 : text == right);
        require(is_same || status == SQLITE_NOMEM, query);
        free(text);
    }
    free(right);
}

static void try_file(sqlite3 *database, const char *path)
{
    static char tile[1 << 16];
    FILE *file = fopen(path, "rb");
    require(file != NULL, path);
    int length = (int)fread(tile, 1, sizeof tile, file);
    fclose(file);
    for (int at = 0; at < QUERIES; ++at)
        refuse(database, queries[at], tile, length);
}

int main(int words, char **word)
{
    sqlite3 *database;
    sqlite3_config(SQLITE_CONFIG_GETMALLOC, &own);
    sqlite3_mem_methods wrapped = own;
    wrapped.xMalloc = take;
    wrapped.xRealloc = take_again;
    sqlite3_config(SQLITE_CONFIG_MALLOC, &wrapped);
    sqlite3_config(SQLITE_CONFIG_LOOKASIDE, 0, 0);
    require(sqlite3_open(":memory:", &database) == SQLITE_OK, "open");
    sqlite3_db_config(database, SQLITE_DBCONFIG_ENABLE_LOAD_EXTENSION, 1, NULL);
    require(words > 2 && sqlite3_load_extension(database, word[1], NULL, NULL) == SQLITE_OK, "the extension can't be loaded");
    for (int at = 2; at < words; ++at)
        try_file(database, word[at]);
    require(sqlite3_close(database) == SQLITE_OK && sqlite3_memory_used() == 0, "memory is left");
    sqlite3_shutdown();
    printf("%ld requests were refused\n", refused);
    return refused == 0;
}

#include "packing.h"

#include <string.h>

#include <sqlite3ext.h>
#include <zlib.h>

SQLITE_EXTENSION_INIT3

/* zlib's numbers for a stream with gzip's head, or with its own. */
static int window_bits(Packing packing)
{
    return packing == BY_GZIP ? 31 : 15;
}

Packing packing_of(Bytes stored)
{
    if (stored.length < 2)
        return PLAIN;
    unsigned first = stored.bytes[0], second = stored.bytes[1];
    if (first == 0x1f && second == 0x8b)
        return BY_GZIP;
    /* (a window of 32 KiB, no dictionary, and a sum that is right) */
    return first == 0x78 && !(second & 32) && (256 * first + second) % 31 == 0 ? BY_ZLIB : PLAIN;
}

/* Memory for twice as much, and at most for one byte more than a tile may have. */
static int widen(Written *tile)
{
    size_t size = tile->length ? 2 * tile->length : 1;
    tile->length = size < LONGEST_TILE + 1 ? size : LONGEST_TILE + 1;
    uint8_t *block = sqlite3_realloc64(tile->block, tile->length);
    if (!block)
        return 0;
    tile->block = block;
    return 1;
}

static Unpacking inflate_all(z_stream *stream, Written *tile)
{
    int status = Z_BUF_ERROR;
    while ((status == Z_OK || status == Z_BUF_ERROR) && stream->avail_out == 0) {
        if (stream->total_out > LONGEST_TILE)
            return TOO_LONG;
        if (!widen(tile))
            return NO_MEMORY;
        stream->next_out = tile->block + stream->total_out;
        stream->avail_out = (uInt)(tile->length - stream->total_out);
        status = inflate(stream, Z_FINISH);
    }
    if (status == Z_MEM_ERROR)
        return NO_MEMORY;
    if (status != Z_STREAM_END || stream->avail_in)
        return NOT_PACKED;
    tile->length = stream->total_out;
    return tile->length > LONGEST_TILE ? TOO_LONG : UNPACKED;
}

Unpacking unpack(Bytes stored, Packing packing, Written *tile)
{
    z_stream stream;
    memset(&stream, 0, sizeof stream);
    memset(tile, 0, sizeof *tile);
    if (stored.length > LONGEST_TILE)
        return TOO_LONG;
    stream.next_in = (Bytef *)stored.bytes;
    stream.avail_in = (uInt)stored.length;
    if (inflateInit2(&stream, window_bits(packing)) != Z_OK)
        return NO_MEMORY;
    /* (real tiles have two to three times the bytes that they are packed in) */
    tile->length = 2 * stored.length;
    Unpacking answer = inflate_all(&stream, tile);
    inflateEnd(&stream);
    if (answer != UNPACKED) {
        sqlite3_free(tile->block);
        tile->block = NULL;
    }
    return answer;
}

int pack(Bytes tile, Packing packing, Written *stored)
{
    z_stream stream;
    memset(&stream, 0, sizeof stream);
    memset(stored, 0, sizeof *stored);
    if (deflateInit2(&stream, Z_DEFAULT_COMPRESSION, Z_DEFLATED, window_bits(packing), 8, Z_DEFAULT_STRATEGY) != Z_OK)
        return 0;
    size_t room = deflateBound(&stream, (uLong)tile.length);
    stored->block = sqlite3_malloc64(room);
    stream.next_in = (Bytef *)tile.bytes;
    stream.avail_in = (uInt)tile.length;
    stream.next_out = stored->block;
    stream.avail_out = (uInt)room;
    int is_packed = stored->block && deflate(&stream, Z_FINISH) == Z_STREAM_END;
    stored->length = stream.total_out;
    deflateEnd(&stream);
    if (!is_packed) {
        sqlite3_free(stored->block);
        stored->block = NULL;
    }
    return is_packed;
}

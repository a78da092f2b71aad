-- Values as tables keep them: in the row, compressed by each method, and outside of the row.

-- A number in the encoding of protocol buffers, and a layer without features.
CREATE FUNCTION varint(number integer) RETURNS bytea LANGUAGE sql IMMUTABLE AS $$
    SELECT CASE WHEN number < 128 THEN set_byte('\x00', 0, number)
                ELSE set_byte(set_byte('\x0000', 0, number % 128 + 128), 1, number / 128) END
$$;
CREATE FUNCTION layer(version integer, name text) RETURNS bytea LANGUAGE sql IMMUTABLE AS $$
    SELECT '\x1a'::bytea || varint(length(body)) || body
    FROM (SELECT '\x78'::bytea || varint(version) || '\x0a' || varint(length(name)) || convert_to(name, 'UTF8') AS body) AS its
$$;

CREATE TABLE kept (
    what text,
    short bytea,
    plain bytea,
    by_pglz bytea COMPRESSION pglz,
    by_lz4 bytea COMPRESSION lz4,
    outside bytea
);
ALTER TABLE kept ALTER plain SET STORAGE PLAIN, ALTER by_pglz SET STORAGE MAIN, ALTER by_lz4 SET STORAGE MAIN, ALTER outside SET STORAGE EXTERNAL;

-- 25 layers of some 200 bytes; of the second tile the last layer has version 1.
INSERT INTO kept
SELECT what, layer(version, 'short'), tile, tile, tile, tile
FROM (VALUES ('valid', 2), ('version 1', 1)) AS rows (what, version),
     LATERAL (SELECT string_agg(layer(CASE i WHEN 25 THEN version ELSE 2 END, i || repeat('n', 200)), '' ORDER BY i)
              FROM generate_series(1, 25) AS i) AS tiles (tile);

SELECT what, pg_column_size(short) - length(short) AS short, pg_column_size(plain) > 5000 AS plain, pg_column_compression(by_pglz) AS by_pglz,
       pg_column_compression(by_lz4) AS by_lz4, length(outside) AS length
FROM kept ORDER BY what;
SELECT pg_relation_size(reltoastrelid) > 0 AS has_values_outside FROM pg_class WHERE relname = 'kept';

SELECT mvt_fault(short), mvt_fault(plain), mvt_fault(by_pglz), mvt_fault(by_lz4), mvt_fault(outside) FROM kept ORDER BY what;
SELECT mvt_is_valid(short), mvt_is_valid(plain), mvt_is_valid(by_pglz), mvt_is_valid(by_lz4), mvt_is_valid(outside) FROM kept ORDER BY what;
SELECT what, f1 AS by_pglz, f2 AS outside FROM kept, ROWS FROM (mvt_faults(by_pglz), mvt_faults(outside)) AS its (f1, f2);
SELECT what, mvt_mend(by_pglz) = plain AS by_pglz, mvt_mend(outside) = plain AS outside FROM kept WHERE what = 'valid';
SELECT what, mvt_dump(by_lz4) = mvt_dump(plain) AS by_lz4, mvt_dump(outside) = mvt_dump(plain) AS outside,
       jsonb_array_length(mvt_dump(outside) -> 'layers') AS layers
FROM kept ORDER BY what;
SELECT mvt_confirm(outside, '{"code": 201, "layer": 24}'), mvt_confirm(outside, '{"code": 201, "layer": 23}') FROM kept ORDER BY what;

-- A valid tile that is kept elsewhere comes back as a value of its own.
CREATE TABLE mended AS SELECT mvt_mend(outside) AS tile FROM kept WHERE what = 'valid';
DROP TABLE kept;
SELECT mvt_is_valid(tile), length(tile) FROM mended;

-- An index and a generated column take the functions, as they are immutable.
CREATE TABLE judged (tile bytea, is_valid boolean GENERATED ALWAYS AS (mvt_is_valid(tile)) STORED);
CREATE INDEX ON judged ((mvt_fault(tile) ->> 'code'));
INSERT INTO judged SELECT layer(version, 'a') FROM generate_series(1, 3) AS version;
SELECT is_valid, mvt_fault(tile) FROM judged ORDER BY tile;
SELECT provolatile, proisstrict, proparallel, count(*) FROM pg_proc WHERE proname LIKE 'mvt\_%' GROUP BY 1, 2, 3;

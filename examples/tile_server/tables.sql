-- The tables of the example, and rows that make valid tiles and faulty ones. Run it in a database of your own:
--     psql -v ON_ERROR_STOP=1 -f tables.sql

CREATE EXTENSION IF NOT EXISTS postgis;

CREATE TABLE areas (
    id bigint PRIMARY KEY,
    name text NOT NULL,
    properties jsonb NOT NULL DEFAULT '{}',
    geometry geometry(MultiPolygon, 3857) NOT NULL
);
CREATE INDEX ON areas USING gist (geometry);

CREATE TABLE places (
    id bigint PRIMARY KEY,
    name text NOT NULL,
    geometry geometry(Point, 3857) NOT NULL
);
CREATE INDEX ON places USING gist (geometry);

-- A shape that is given in units of the tile 6/COLUMN/20, as a tile of extent 4096 has them: y points down.
CREATE FUNCTION pg_temp.on_tile(tile_column integer, shape text) RETURNS geometry
LANGUAGE sql IMMUTABLE AS $$
    SELECT ST_SetSRID(ST_Affine(ST_GeomFromText(shape), unit, 0, 0, -unit, ST_XMin(tile), ST_YMax(tile)), 3857)
    FROM (SELECT tile, (ST_XMax(tile) - ST_XMin(tile)) / 4096 AS unit
          FROM ST_TileEnvelope(6, tile_column, 20) AS tile) AS its
$$;

-- In the comments 'by feature' means by the profile `feature`; where it isn't said, both profiles say the same.
INSERT INTO areas (id, name, properties, geometry)
SELECT id, name, properties::jsonb, ST_Multi(pg_temp.on_tile(tile_column, shape)) FROM (VALUES
    -- Valid: a field with a pond, far from each other.
    (100, 0, 'a field', '{"crop": "oats", "hectares": 81}',
     'POLYGON((100 100, 1000 100, 1000 1000, 100 1000, 100 100), (300 300, 300 500, 500 500, 500 300, 300 300))'),

    -- Two ponds, a third of a unit apart. Rounded to units they touch at (400, 400); on a finer grid they don't.
    (110, 1, 'a field', '{}',
     'POLYGON((1100 100, 2000 100, 2000 1000, 1100 1000, 1100 100))'),
    (111, 1, 'two ponds close to each other', '{}',
     'POLYGON((100 100, 1000 100, 1000 1000, 100 1000, 100 100), (200 200, 200 400, 400 400, 400 200, 200 200),
              (400.3 400.3, 400.3 600, 600 600, 600 400.3, 400.3 400.3))'),

    -- Two ponds that have a vertex in common. No grid parts them.
    (120, 2, 'two ponds with one corner', '{}',
     'POLYGON((100 100, 1000 100, 1000 1000, 100 1000, 100 100), (200 200, 200 400, 400 400, 400 200, 200 200),
              (400 400, 400 600, 600 600, 600 400, 400 400))'),

    -- A pond whose tip is less than half a unit from the edge of the field. Rounded it touches the edge at (100, 500).
    (130, 3, 'a pond close to the edge', '{}',
     'POLYGON((100 100, 1000 100, 1000 1000, 100 1000, 100 100), (100.4 500, 500 700, 500 300, 100.4 500))'),

    -- A ring that runs over itself, so it is not valid before it is rounded either. The rectangle that it goes round twice
    -- becomes a hole, which touches the exterior where the ring crosses itself, at (400, 100). ST_MakeValid fills it.
    (140, 4, 'a ring with a loop', '{}',
     'POLYGON((100 100, 600 100, 600 400, 400 400, 400 50, 900 50, 900 900, 100 900, 100 100))'),

    -- A column twice: the properties have a key `name` too. This isn't a fault of polygons, so it isn't mended.
    (150, 5, 'a name', '{"name": "another name"}',
     'POLYGON((100 100, 1000 100, 1000 1000, 100 1000, 100 100))'),

    -- Two wide parts and a neck of a third of a unit. Rounded it becomes two polygons that touch at (500, 500): valid, but not by
    -- feature. A finer grid keeps the neck.
    (160, 6, 'a narrow neck', '{}',
     'POLYGON((100 100, 500 500, 900 100, 900 900, 500 500.3, 100 900, 100 100))'),

    -- Two polygons of one feature that overlap. PostGIS leaves out what they share, so that the rest touches at two points: valid,
    -- but not by feature. ST_MakeValid unites them.
    (170, 7, 'two that overlap', '{}',
     'MULTIPOLYGON(((100 100, 500 100, 500 500, 100 500, 100 100)), ((300 300, 800 300, 800 800, 300 800, 300 300)))'),

    -- Two polygons of one feature that have a vertex in common: valid, but not by feature.
    (180, 8, 'two with one corner', '{}',
     'MULTIPOLYGON(((100 100, 500 100, 500 500, 100 500, 100 100)), ((500 500, 900 500, 900 900, 500 900, 500 500)))'),

    -- Too small for the grid: PostGIS leaves it out, and the tile has no feature.
    (190, 9, 'a garden', '{}',
     'POLYGON((100.1 100.1, 100.4 100.1, 100.4 100.4, 100.1 100.4, 100.1 100.1))')
) AS rows (id, tile_column, name, properties, shape);

-- 1,600 round ponds with an island each, in 40 rows: a tile of many polygons, which is valid. A unit has some 153 metres.
INSERT INTO areas (id, name, properties, geometry)
SELECT 10000 + 40 * i + j, 'pond ' || 40 * i + j, jsonb_build_object('kind', 'pond', 'depth', (i + j) % 9),
       ST_Multi(ST_Difference(ST_Buffer(middle, 40 * unit, 4), ST_Buffer(middle, 12 * unit, 2)))
FROM generate_series(0, 39) AS i, generate_series(0, 39) AS j,
     LATERAL (SELECT pg_temp.on_tile(20, format('POINT(%s %s)', 51 + 102 * i, 51 + 102 * j)) AS middle) AS its,
     LATERAL (SELECT (ST_XMax(tile) - ST_XMin(tile)) / 4096 AS unit FROM ST_TileEnvelope(6, 20, 20) AS tile) AS tiles;

-- A place in the tile of the field; one beyond the side of a tile, which draws it too, and one too far beyond it; and 2,000 in a tile
-- that has points alone.
INSERT INTO places (id, name, geometry) VALUES
    (1, 'a well', pg_temp.on_tile(0, 'POINT(700 700)')),
    (2, 'a milestone', pg_temp.on_tile(26, 'POINT(4150 700)')),
    (3, 'another milestone', pg_temp.on_tile(26, 'POINT(4170 700)'));
INSERT INTO places (id, name, geometry)
SELECT 1000 + i, 'place ' || i, pg_temp.on_tile(24, format('POINT(%s %s)', 1 + 797 * i % 4093, 1 + 1571 * i % 4091))
FROM generate_series(0, 1999) AS i;

ANALYZE areas, places;

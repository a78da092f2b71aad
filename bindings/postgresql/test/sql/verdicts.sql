-- Verdicts on tiles of a few bytes. tiles/README.md of the repository says what they are.
CREATE VIEW samples (name, tile) AS VALUES
    ('point', '\x1a0e78020a0161120718012203093222'::bytea),
    ('empty', '\x'),
    ('truncated', '\x1a0e78020a01611207180122030932'),
    ('version_one', '\x1a0578010a0161'),
    ('ring_of_two', '\x1a1278020a0161120b180322070900000a14000f'),
    ('crossing_edges', '\x1a1678020a0161120f1803220b0900101a140f001413130f'),
    ('polygons_that_overlap', '\x1a2178020a0161121a180322160900001a1400001413000f090a091a1400001413000f'),
    -- a feature of crossing_edges, and one of ring_of_two
    ('two_faults', '\x1a2378020a0161120f1803220b0900101a140f001413130f120b180322070900000a14000f'),
    ('none', NULL);

SELECT name, mvt_is_valid(tile), mvt_is_valid(tile, 'feature') AS by_feature FROM samples;
SELECT name, mvt_fault(tile) FROM samples;
-- (of a feature whose edges meet, by `feature` any meeting may be named)
SELECT name, fault ->> 'layer' AS layer, fault ->> 'feature' AS feature, fault ->> 'code' IN ('504', '507') AS is_of_polygons
FROM samples, mvt_fault(tile, profile => 'feature') AS fault WHERE mvt_is_valid(tile) AND NOT mvt_is_valid(tile, 'feature');
SELECT name, ordinal, fault FROM samples, mvt_faults(tile) WITH ORDINALITY AS its (fault, ordinal);
SELECT mvt_faults(tile) ->> 'code' AS code FROM samples WHERE name = 'two_faults';
SELECT mvt_faults(tile) ->> 'code' AS code FROM samples WHERE name = 'two_faults' LIMIT 1;
SELECT count(*) FROM mvt_faults(NULL);

-- By the separate checker: each fault of its own tile, and none of another one.
SELECT name, mvt_confirm(tile, mvt_fault(tile)) FROM samples;
SELECT one.name, other.name FROM samples AS one, samples AS other
WHERE one.name <> other.name AND mvt_confirm(other.tile, mvt_fault(one.tile)) ORDER BY 1, 2;
SELECT mvt_confirm(tile, fault, 'feature') AS by_feature, mvt_confirm(tile, fault) AS by_polygon
FROM samples, mvt_fault(tile, 'feature') AS fault WHERE name = 'polygons_that_overlap';

SELECT split_part(mvt_explain(mvt_fault(tile)), E'\n', 1) AS title FROM samples WHERE name IN ('truncated', 'crossing_edges');

SELECT name, mvt_dump(tile) FROM samples;

-- Tiles that are mended, left as they are, and refused.
SELECT mvt_mend('\x1a0e78020a0161120718012203093222'), mvt_mend_report('\x1a0e78020a0161120718012203093222');
SELECT mvt_mend(''), mvt_mend_report('');
SELECT mvt_mend(NULL), mvt_mend_report(NULL), mvt_mend('', NULL), mvt_mend('', drop => NULL);

-- A ring whose edges cross: a polygon comes back, near the old one.
SELECT mvt_is_valid(mended) AS is_valid, mvt_is_valid(mended, 'feature') AS by_feature, mended <> tile AS is_new,
       mvt_dump(mended) -> 'layers' -> 0 ->> 'name' AS layer, jsonb_array_length(mvt_dump(mended) #> '{layers,0,features}') AS features
FROM (VALUES ('\x1a1678020a0161120f1803220b0900101a140f001413130f'::bytea)) AS its (tile), mvt_mend(tile, 'feature') AS mended;
SELECT change - 'area' - 'polygons' - 'vertices' - 'crossings' - 'cuts' AS change, report ->> 'ok' AS ok
FROM mvt_mend_report('\x1a1678020a0161120f1803220b0900101a140f001413130f') AS report, jsonb_array_elements(report -> 'changed') AS change;

-- Bytes that are no tile, and a fault that isn't of polygons, are refused whatever is left out.
SELECT mvt_mend('\x1a0e78020a01611207180122030932');
SELECT mvt_mend('\x1a0578010a0161', drop => true);
SELECT mvt_mend_report('\x1a0578010a0161', drop => true);

-- A ring of two vertices draws nothing: its feature is left out, where that is asked for.
SELECT mvt_mend('\x1a1278020a0161120b180322070900000a14000f');
SELECT mvt_mend_report('\x1a1278020a0161120b180322070900000a14000f');
SELECT mvt_mend('\x1a1278020a0161120b180322070900000a14000f', drop => true);
SELECT mvt_mend_report('\x1a1278020a0161120b180322070900000a14000f', 'feature', true);

-- A handler reads the fault of a refusal.
DO $$
DECLARE
    fault text;
BEGIN
    PERFORM mvt_mend('\x1a0578010a0161');
EXCEPTION WHEN invalid_binary_representation THEN
    GET STACKED DIAGNOSTICS fault = PG_EXCEPTION_DETAIL;
    RAISE NOTICE 'code %', fault::jsonb ->> 'code';
END
$$;

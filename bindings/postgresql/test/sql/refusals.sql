-- What isn't answered, and by which state.
CREATE FUNCTION state_of(query text) RETURNS text LANGUAGE plpgsql AS $$
BEGIN
    EXECUTE query;
    RETURN 'none';
EXCEPTION WHEN OTHERS THEN
    RETURN SQLSTATE || ': ' || SQLERRM;
END
$$;

-- profiles
SELECT mvt_fault('', 'polygons');
SELECT profile, state_of(format('SELECT mvt_is_valid('''', %L)', profile))
FROM unnest(ARRAY['polygon', 'feature', 'Polygon', '', 'features', 'polygon ', repeat('p', 40)]) AS profile;
SELECT call, state_of(call) FROM unnest(ARRAY[
    'SELECT mvt_fault('''', ''x'')',
    'SELECT mvt_faults('''', ''x'')',
    'SELECT mvt_confirm('''', ''{}'', ''x'')',
    'SELECT mvt_mend('''', ''x'')',
    'SELECT mvt_mend_report('''', ''x'')'
]) AS call;

-- JSON that is no fault
SELECT fault, state_of(format('SELECT mvt_confirm('''', %L)', fault)) AS confirm, state_of(format('SELECT mvt_explain(%L)', fault)) AS explain
FROM unnest(ARRAY[
    '{}', '[]', '7', 'null', '"code"', '{"code": 201}', '{"code": 201, "layer": -1}', '{"code": 201, "layer": 1.5}',
    '{"code": 201, "layer": 0, "more": 1}', '{"code": 999, "layer": 0}', '{"code": 201, "layer": 18446744073709551616}',
    '{"at": 0, "code": 105, "field": 4294967296, "scope": "tile"}', '{"at": 0, "code": 105, "field": 3, "scope": "row"}',
    '{"code": 504, "feature": 0, "first": {"edge": 0, "ring": 0}, "layer": 0, "polygon": 0, "second": [0, 0], "w": "1", "x": "0", "y": "0"}',
    '{"code": 201, "layer": 18446744073709551615}', '{"layer": 3, "code": 2.01e2}', '{"code": 200, "layer": 9, "code": 201, "layer": 3}'
]) AS fault;
SELECT split_part(mvt_explain('{"code": 201, "layer": 18446744073709551615}'), E'\n', 2) AS sentence;
-- (of equal keys the last one counts)
SELECT split_part(mvt_explain('{"code": 200, "layer": 9, "code": 201, "l\u0061yer": 3}'), E'\n', 2) AS sentence;

-- a tile that is too long
SET mvtgate.longest_tile = 14;
SELECT call, state_of(call) FROM unnest(ARRAY[
    'SELECT mvt_is_valid(''\x1a0e780a0a0161120718012203093222'')',
    'SELECT mvt_is_valid(''\x0801080108010801080108010801'')',
    'SELECT mvt_faults(''\x080108010801080108010801080108'')',
    'SELECT mvt_mend(''\x080108010801080108010801080108'')',
    'SELECT mvt_dump(''\x080108010801080108010801080108'')'
]) AS call;
RESET mvtgate.longest_tile;
-- one that isn't, with a text that is: of a million layers
SELECT state_of('SELECT mvt_dump(decode(repeat(''1a0478020a00'', 1000000), ''hex''))');
SHOW mvtgate.longest_tile;
SET mvtgate.longest_tile = '65MB';
SET mvtgate.shortest_tile = 1;
CREATE ROLE mvtgate_reader;
SET ROLE mvtgate_reader;
SET mvtgate.longest_tile = 14;
RESET ROLE;
DROP ROLE mvtgate_reader;

-- The functions of the extension. Each statement also takes the place of an older version's, so that this file, or what changed in
-- it, is the script of an upgrade too.
\echo Use "CREATE EXTENSION mvtgate" to load this file. \quit

CREATE OR REPLACE FUNCTION mvt_is_valid(tile bytea, profile text DEFAULT 'polygon') RETURNS boolean
AS 'MODULE_PATHNAME' LANGUAGE C IMMUTABLE STRICT PARALLEL SAFE COST 1000;
COMMENT ON FUNCTION mvt_is_valid(bytea, text) IS 'whether the bytes are a valid Mapbox vector tile';

CREATE OR REPLACE FUNCTION mvt_fault(tile bytea, profile text DEFAULT 'polygon') RETURNS jsonb
AS 'MODULE_PATHNAME' LANGUAGE C IMMUTABLE STRICT PARALLEL SAFE COST 1000;
COMMENT ON FUNCTION mvt_fault(bytea, text) IS 'the first fault of a tile, or null where it is valid';

CREATE OR REPLACE FUNCTION mvt_faults(tile bytea, profile text DEFAULT 'polygon') RETURNS SETOF jsonb
AS 'MODULE_PATHNAME' LANGUAGE C IMMUTABLE STRICT PARALLEL SAFE COST 1000 ROWS 10;
COMMENT ON FUNCTION mvt_faults(bytea, text) IS 'the first fault of each layer and of each feature that has any';

CREATE OR REPLACE FUNCTION mvt_confirm(tile bytea, fault jsonb, profile text DEFAULT 'polygon') RETURNS boolean
AS 'MODULE_PATHNAME' LANGUAGE C IMMUTABLE STRICT PARALLEL SAFE COST 1000;
COMMENT ON FUNCTION mvt_confirm(bytea, jsonb, text) IS 'whether a fault is true of a tile, by a separate checker';

CREATE OR REPLACE FUNCTION mvt_explain(fault jsonb) RETURNS text
AS 'MODULE_PATHNAME' LANGUAGE C IMMUTABLE STRICT PARALLEL SAFE;
COMMENT ON FUNCTION mvt_explain(jsonb) IS 'a fault in words: what is wrong, what causes it and what to do';

CREATE OR REPLACE FUNCTION mvt_mend(tile bytea, profile text DEFAULT 'polygon', drop boolean DEFAULT false) RETURNS bytea
AS 'MODULE_PATHNAME' LANGUAGE C IMMUTABLE STRICT PARALLEL SAFE COST 1000;
COMMENT ON FUNCTION mvt_mend(bytea, text, boolean) IS 'a valid tile in place of one whose polygons break the rules';

CREATE OR REPLACE FUNCTION mvt_mend_report(tile bytea, profile text DEFAULT 'polygon', drop boolean DEFAULT false) RETURNS jsonb
AS 'MODULE_PATHNAME' LANGUAGE C IMMUTABLE STRICT PARALLEL SAFE COST 1000;
COMMENT ON FUNCTION mvt_mend_report(bytea, text, boolean) IS 'what mvt_mend changes, or the fault for which it refuses the tile';

CREATE OR REPLACE FUNCTION mvt_dump(tile bytea) RETURNS jsonb
AS 'MODULE_PATHNAME' LANGUAGE C IMMUTABLE STRICT PARALLEL SAFE COST 1000;
COMMENT ON FUNCTION mvt_dump(bytea) IS 'what a tile holds, or the fault of bytes that are no tile';

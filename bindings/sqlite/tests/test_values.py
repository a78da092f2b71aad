"""Values of each kind, packed tiles, and what is refused."""
from __future__ import annotations

import gzip
import json
import pathlib
import sqlite3
import subprocess
import sys
import zlib
from typing import Any, Callable

import pytest

from samples import TOP, shapes

VALID, CROSSING = ((TOP / "tiles" / name).read_bytes() for name in ("point.mvt", "crossing_edges.mvt"))
CALLS = ["mvt_is_valid(?1)", "mvt_fault(?1)", "mvt_mend(?1)", "mvt_mend_report(?1)", "mvt_dump(?1)", "mvt_confirm(?1, '{\"code\":201,\"layer\":0}')"]
LISTS = "(SELECT count(*) FROM mvt_faults(?1))"
LIMIT = 64 << 20
GZIP_AS_IT_IS = {"at": 0, "code": 104, "field": 3, "scope": "tile"}


def one(database: Any, expression: str, *words: Any) -> Any:
    return database.execute(f"SELECT {expression}", words).fetchone()[0]


@pytest.mark.parametrize("call", CALLS)
def test_null_gives_null(database: Any, call: str) -> None:
    assert one(database, call, None) is None


@pytest.mark.parametrize("call", ["mvt_is_valid('', ?)", "mvt_fault('', ?)", "mvt_mend('', ?)", "mvt_mend('', 'polygon', ?)", "mvt_confirm('', ?)", "mvt_explain(?)"])
def test_null_behind_the_tile_gives_null(database: Any, call: str) -> None:
    assert one(database, call, None) is None


def test_lists_of_null_are_empty(database: Any) -> None:
    assert one(database, LISTS, None) == 0
    assert one(database, "(SELECT count(*) FROM mvt_faults(?1, NULL))", CROSSING) == 0


def test_no_bytes_are_a_valid_tile(database: Any) -> None:
    for it in (b"", gzip.compress(b""), zlib.compress(b"")):
        assert one(database, "mvt_is_valid(?)", it) == 1
        assert one(database, "mvt_mend(?)", it) == it
    assert json.loads(one(database, "mvt_dump(x'')")) == {"layers": []}


def test_a_text_is_taken_by_its_bytes(database: Any) -> None:
    assert one(database, "mvt_is_valid(CAST(? AS TEXT))", VALID) == 1


@pytest.mark.parametrize("tile", [7, 7.5])
@pytest.mark.parametrize("call", [*CALLS, LISTS])
def test_a_number_is_no_tile(database: Any, call: str, tile: float) -> None:
    with pytest.raises(sqlite3.OperationalError, match="a tile is a blob"):
        one(database, call, tile)


@pytest.mark.parametrize("profile", ["Polygon", "", "features", 0, b"\xff" * 7])
@pytest.mark.parametrize("call", ["mvt_is_valid('', ?)", "mvt_fault('', ?)", "mvt_mend('', ?)", "mvt_mend_report('', ?)", "mvt_confirm('', '{}', ?)", "(SELECT fault FROM mvt_faults('', ?))"])
def test_there_is_no_such_profile(database: Any, call: str, profile: Any) -> None:
    with pytest.raises(sqlite3.OperationalError, match="there is no such profile"):
        one(database, call, profile)


@pytest.mark.parametrize("fault", ["", "{", "{}", "7", '{"code":201}', '{"code":999,"layer":0}', '{"code":201,"layer":1.5}', '{"code":201,"layer":0,"more":1}', 7, b"\xff"])
def test_what_is_no_fault(database: Any, fault: Any) -> None:
    for call in ("mvt_confirm('', ?)", "mvt_explain(?)"):
        with pytest.raises(sqlite3.OperationalError, match="the JSON is no fault"):
            one(database, call, fault)


def test_a_fault_with_other_spaces_and_order(database: Any) -> None:
    fault = ' { "layer" : 18446744073709551615 ,\n "code" : 201 } '
    assert one(database, "mvt_explain(?)", fault).startswith("201: ")
    assert "18446744073709551615" in one(database, "mvt_explain(?)", fault)
    assert one(database, "mvt_confirm(x'1a0578010a0161', ?)", '{"layer": 0, "code": 201}') == 1
    assert one(database, "mvt_confirm(x'1a0578010a0161', ?)", fault) == 0


@pytest.mark.parametrize("fault", [
    '{"code":200,"layer":9,"code":201,"layer":3}',
    '{"layer":{"code":[1,2]},"layer":3,"code":"}","code":201}',
    '{"\\u0063ode":201,"l\\u0061yer":3}',
    '{"l\\u0061yer":9,"layer":3,"code":201}',
])
def test_a_fault_is_read_as_the_program_reads_it(database: Any, fault: str) -> None:
    # (of equal keys the last one counts, and the spelling of strings doesn't matter)
    assert one(database, "mvt_explain(?)", fault).splitlines()[1] == "The version of layer 3 isn't 2."
    assert one(database, "mvt_confirm('', ?)", fault) == 0


@pytest.mark.parametrize("fault", ['{"code":201,"layer":3,"layer":null}', '{"layer":3,"code":201,"code":200}', "[" * 128 + "]" * 128, '{"code":201,"layer":1e999,"layer":3}'])
def test_what_the_program_does_not_read(database: Any, fault: str) -> None:
    for call in ("mvt_confirm('', ?)", "mvt_explain(?)"):
        with pytest.raises(sqlite3.OperationalError, match="the JSON is no fault"):
            one(database, call, fault)


@pytest.mark.parametrize("pack", [gzip.compress, zlib.compress])
def test_a_broken_stream_is_judged_as_it_is(database: Any, pack: Callable[[bytes], bytes]) -> None:
    packed = pack(VALID)
    for stored in (packed[:-1], packed + b"\0", packed[:-6] + bytes([packed[-6] ^ 255]) + packed[-5:], packed + packed, packed[:2]):
        assert one(database, "mvt_is_valid(?)", stored) == 0
        fault = json.loads(one(database, "mvt_fault(?)", stored))
        assert fault == GZIP_AS_IT_IS if pack is gzip.compress else fault["code"] < 200
        assert one(database, "mvt_confirm(?1, mvt_fault(?1))", stored) == 1


def test_a_tile_that_begins_as_if_it_were_packed(database: Any) -> None:
    # (a field 15 of the tile, with the number 156, and nothing else: valid, as no field 15 is known there)
    assert one(database, "mvt_is_valid(x'789c01')") == 1


def test_the_greatest_length(database: Any) -> None:
    # (one field that no tile has)
    greatest = b"\x3a\xfb\xff\xff\x1f"
    greatest += bytes(LIMIT - len(greatest))
    assert len(greatest) == LIMIT
    for packed in (greatest, gzip.compress(greatest, 1), zlib.compress(greatest, 1)):
        assert one(database, "mvt_fault(?)", packed) is None
    for packed in (greatest + b"\0", gzip.compress(greatest + b"\0", 1), zlib.compress(bytes(4 * LIMIT), 1)):
        for call in (*CALLS, LISTS):
            with pytest.raises(sqlite3.DataError, match="64 MiB"):
                one(database, call, packed)


def test_a_long_tile_is_not_mended_by_feature(database: Any) -> None:
    tile = shapes.tile(shapes.SHAPES["late_meeting"](1000))
    # (behind a field that no tile has)
    tile += b"\x3a\x80\x80\x40" + bytes(1 << 20)
    assert one(database, "mvt_mend(?, 'polygon') IS NULL", tile) == 0
    with pytest.raises(sqlite3.DataError, match="1 MiB"):
        one(database, "mvt_mend(?, 'feature')", tile)
    assert one(database, "mvt_mend(?, 'feature')", bytes(tile[-(1 << 20) - 4 :])) is not None


def test_a_tile_that_is_refused(database: Any) -> None:
    with pytest.raises(sqlite3.OperationalError) as told:
        one(database, "mvt_mend(?)", VALID[:-1])
    assert str(told.value).partition(": ")[2] == '{"at":0,"code":105,"field":3,"scope":"tile"}'


def test_lists_as_a_table(database: Any) -> None:
    assert database.execute("SELECT rowid, fault ->> 'code', mvt_profile, mvt_tile FROM mvt_faults(?, 'feature')", (CROSSING,)).fetchall() == [(0, 504, "feature", CROSSING)]
    assert database.execute("SELECT count(*) FROM mvt_faults WHERE mvt_tile = ? AND mvt_profile = 'polygon'", (CROSSING,)).fetchone() == (1,)
    with pytest.raises(sqlite3.OperationalError, match="is to be given a tile"):
        database.execute("SELECT * FROM mvt_faults")
    database.execute("CREATE TABLE tiles (tile)")
    database.executemany("INSERT INTO tiles VALUES (?)", [(VALID,), (CROSSING,), (None,), (b"\x00",)])
    # (the order of the tables doesn't matter)
    for tables in ("tiles, mvt_faults(tile)", "mvt_faults AS list JOIN tiles ON list.mvt_tile = tile"):
        assert database.execute(f"SELECT fault ->> 'code' FROM {tables} ORDER BY 1").fetchall() == [(103,), (504,)]
    assert database.execute("SELECT count(*) FROM tiles LEFT JOIN mvt_faults(tile)").fetchone() == (4,)


def test_views_triggers_and_indexes_may_call_them(database: Any) -> None:
    # (by this setting, what a file's schema calls has to be innocuous)
    database.execute("PRAGMA trusted_schema = OFF")
    database.execute("CREATE TABLE tiles (tile, fault AS (mvt_fault(tile)) STORED, CHECK (mvt_is_valid(tile) OR instr(fault, ':105,') = 0))")
    database.execute("CREATE INDEX by_fault ON tiles (mvt_fault(tile))")
    database.execute("CREATE VIEW faults AS SELECT fault.fault FROM tiles, mvt_faults(tile) AS fault")
    database.execute("CREATE VIEW words AS SELECT mvt_explain(mvt_fault(tile)) AS said FROM tiles WHERE mvt_fault(tile) IS NOT NULL")
    database.executemany("INSERT INTO tiles (tile) VALUES (?)", [(VALID,), (CROSSING,)])
    with pytest.raises(sqlite3.IntegrityError):
        database.execute("INSERT INTO tiles (tile) VALUES (?)", (VALID[:-1],))
    assert database.execute("SELECT count(*) FROM tiles JOIN faults ON faults.fault = tiles.fault").fetchone() == (1,)
    assert database.execute("SELECT said FROM words").fetchone()[0].startswith("504: ")
    assert "by_fault" in database.execute("EXPLAIN QUERY PLAN SELECT 1 FROM tiles WHERE mvt_fault(tile) = 'x'").fetchone()[3]


# A program of its own: the limit holds for all databases of a process, and can't be raised again.
LIMITED = """
import sqlite3, sys
extension, valid = sys.argv[1:]
database = sqlite3.connect(":memory:")
database.enable_load_extension(True)
database.load_extension(extension)
tile = sys.stdin.buffer.read()
print(database.execute("SELECT mvt_is_valid(?)", (tile,)).fetchone()[0] in (0, 1))
database.execute("PRAGMA hard_heap_limit = 4000000")
try:
    database.execute("SELECT mvt_dump(?)", (tile,))
except MemoryError:
    print("refused")
print(database.execute("SELECT mvt_is_valid(?)", (bytes.fromhex(valid),)).fetchone()[0])
"""


def test_memory_that_is_refused(extension: pathlib.Path) -> None:
    words = [sys.executable, "-c", LIMITED, str(extension.with_suffix("")), VALID.hex()]
    run = subprocess.run(words, input=shapes.zigzag(1 << 20), check=True, capture_output=True)
    assert run.stdout == b"True\nrefused\n1\n"

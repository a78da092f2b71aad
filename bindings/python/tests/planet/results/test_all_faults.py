"""A run with --all: a line for each fault of a tile, its layer's name and its feature's id, and how tiles are told from faults."""
from __future__ import annotations

import gzip
import json
import pathlib
import re
from typing import Any, Dict, List, Optional, Tuple

import pytest

import mvtgate
from conftest import SAMPLES
from mvtgate import Fault, Profile
from mvtgate.planet.further import Further, OneFault
from mvtgate.planet.journal import Journal
from mvtgate.planet.names import Names
from mvtgate.planet.records import Finding, Judged, Partition
from planet.helpers.made import MADE, SQUARES, layer, point
from planet.helpers.planets import names_by_reader
from planet.helpers.runs import REFUSED, SAMPLE, VALID, Run, Tile, journal, place, records, run, write_database

Named = Tuple[str, Optional[str], Optional[int]]
BEFORE_SQUARES: List[Named] = [
    ('{"code":201,"layer":1}', "roads", None),
    ('{"code":202,"first":0,"second":2}', "water", None),
    ('{"code":402,"feature":1,"index":0,"layer":0}', "water", 8),
]
AFTER_SQUARES: List[Named] = [
    ('{"code":402,"feature":0,"index":0,"layer":1}', "roads", 9),
    ('{"code":402,"feature":2,"index":0,"layer":3}', "ä", 12),
]
FAULTS = BEFORE_SQUARES + AFTER_SQUARES
CROSSING = SAMPLE["crossing_edges"]
TILES = [
    Tile(5, 1, 9, VALID),
    Tile(5, 2, 9, gzip.compress(MADE)),
    Tile(5, 3, 9, CROSSING.tile),
    Tile(5, 4, 9, b"\x1f\x8b"),
    Tile(5, 5, 9, MADE),
]


def of_made(path: pathlib.Path, tile: Tile, named: List[Named]) -> List[Dict[str, Any]]:
    """The lines of the tile that is made by hand."""
    begin = {**place(path, tile), "size": len(MADE), "seconds": 0}
    return [
        {
            **begin,
            "layer": name,
            "feature_id": identity,
            "fault": json.loads(text),
            "sentence": Fault.from_text(text).sentence,
            # (the first one is handed to the checker)
            "confirmed": True if number == 0 else None,
            "number": number,
            "faults": len(named),
        }
        for number, (text, name, identity) in enumerate(named)
    ]


def timeless(output: pathlib.Path) -> List[Dict[str, Any]]:
    return [{**it, "seconds": 0} if "seconds" in it else it for it in records(output / "faults.jsonl")]


@pytest.fixture(scope="module")
def database(tmp_path_factory: pytest.TempPathFactory) -> pathlib.Path:
    return write_database(tmp_path_factory.mktemp("all") / "all.mbtiles", TILES)


@pytest.fixture(scope="module")
def ended(database: pathlib.Path, tmp_path_factory: pytest.TempPathFactory) -> Run:
    return run(tmp_path_factory.mktemp("out") / "out", database, "--all", "--workers", 2, "--partition", 2)


def test_each_fault_has_a_line(database: pathlib.Path, ended: Run) -> None:
    lines = timeless(ended.output)
    assert lines[:5] == of_made(database, TILES[1], FAULTS) and lines[7:] == of_made(database, TILES[4], FAULTS)
    crossing, unjudged = lines[5:7]
    assert (crossing["number"], crossing["faults"], crossing["confirmed"]) == (0, 1, True)
    assert (crossing["layer"], crossing["feature_id"]) == names_by_reader(CROSSING.tile, CROSSING.lines[Profile.POLYGON][0])
    assert "error" in unjudged and "number" not in unjudged and "fault" not in unjudged


def test_last_line_tells_tiles_from_faults(ended: Run) -> None:
    assert ended.process.returncode == 2
    assert ended.said[-1].startswith("5 tiles: 1 valid, 3 with a fault, 11 faults in all, 1 not judged; see ")


def test_same_words_go_on(database: pathlib.Path, ended: Run) -> None:
    """With the journal alone the same is written, and other words are refused."""
    before = timeless(ended.output)
    (ended.output / "faults.jsonl").unlink()
    again = run(ended.output, database, "--all", "--workers", 2, "--partition", 2)
    assert again.process.returncode == 2 and timeless(ended.output) == before
    other = run(ended.output, database, "--workers", 2, "--partition", 2)
    assert other.process.returncode == REFUSED and "(all not the same)" in other.stderr


def test_without_the_option_each_tile_has_one_line(database: pathlib.Path, tmp_path: pathlib.Path) -> None:
    it = run(tmp_path / "out", database, "--workers", 1)
    lines = timeless(tmp_path / "out")
    first = of_made(database, TILES[1], FAULTS)[0]
    assert lines[0] == {key: value for key, value in first.items() if key not in ("number", "faults")}
    assert [line.get("fault", {}).get("code") for line in lines] == [201, 504, None, 201]
    assert it.said[-1].startswith("5 tiles: 1 valid, 3 with a fault, 1 not judged; see ")
    assert all(found["further"] is None for judged in journal(tmp_path / "out") for found in judged["findings"])


def test_quick_by_feature(database: pathlib.Path, tmp_path: pathlib.Path) -> None:
    """Of the squares that overlap a quick verdict has edges that meet, so that no tile takes long."""
    run(tmp_path / "out", database, "--all", "--profile", "feature", "--workers", 1)
    [squares] = [it for it in timeless(tmp_path / "out") if it["column"] == 2 and it.get("feature_id") == 0x63]
    assert (squares["fault"]["code"], squares["layer"], squares["number"], squares["faults"]) == (504, "water", 3, 6)


def test_quick_without_the_option(tmp_path: pathlib.Path) -> None:
    tile = layer("water", 2, SQUARES)
    exact = mvtgate.check(tile, Profile.FEATURE)
    assert exact is not None and exact.code == 507
    path = write_database(tmp_path / "it.mbtiles", [Tile(5, 1, 9, tile)])
    run(tmp_path / "out", path, "--profile", "feature", "--workers", 1)
    [line] = records(tmp_path / "out/faults.jsonl")
    assert (line["fault"]["code"], line["feature_id"]) == (504, 0x63)


def table(html: str, kind: str) -> List[List[str]]:
    """The texts of the cells of a kind of rows in the table of codes."""
    [body] = re.findall(r'<table class="rows code-table">(.*?)</table>', html, re.DOTALL)
    found = re.findall(rf'<tr [^>]*class="{kind}">(.*?)</tr>', body, re.DOTALL)
    cells = [re.findall(r"<t[hd][^>]*>(.*?)</t[hd]>", row, re.DOTALL) for row in found]
    return [[re.sub(r"<[^>]*>|\s+", " ", cell).strip() for cell in row] for row in cells]


def test_report_counts_both(ended: Run) -> None:
    """By code: all faults, and the tiles that have it as their first one."""
    html = (ended.output / "report.html").read_text()
    counts = {row[0]: (row[2], row[3]) for row in table(html, "of-code")}
    assert counts == {"201": ("2", "2"), "504": ("1", "1"), "202": ("2", "0"), "402": ("6", "0")}
    of_layers = {row[1]: (row[2], row[3]) for row in table(html, "of-layer")}
    assert of_layers == {"water": ("2", "0"), "roads": ("2", "0"), "ä": ("2", "0")}
    assert '<div data-measure="faults"><dt>Faults in all</dt><dd>11</dd></div>' in html
    # (and of each code the first tiles are listed)
    assert all(f'id="code-{code}"' in html for code in counts)


def test_report_without_the_option_counts_tiles(database: pathlib.Path, tmp_path: pathlib.Path) -> None:
    run(tmp_path / "out", database, "--workers", 1)
    html = (tmp_path / "out/report.html").read_text()
    assert {row[0]: row[2] for row in table(html, "of-code")} == {"201": "2", "504": "1"}
    assert "Faults in all" not in html


@pytest.mark.parametrize("sample", [it for it in SAMPLES if it.is_tile], ids=lambda it: str(it.path.stem))
def test_names_in_one_walk(sample: Any) -> None:
    names = Names(sample.tile)
    for fault in mvtgate.faults(sample.tile, Profile.FEATURE):
        assert names.subject_of(fault) == Names(sample.tile).subject_of(fault)


def test_names_of_many_faults() -> None:
    tile = b"".join(layer(f"layer {at}", 1 + at % 2, *(point(100 * at + it, it % 3 == 0) for it in range(50))) for at in range(30)) + 3 * layer("layer 2", 2)
    names = Names(tile)
    found = [(fault, names.subject_of(fault)) for fault in mvtgate.faults(tile)]
    assert len(found) == 15 + 3 + 30 * 33
    for fault, (name, identity, _, _) in found:
        assert name == f"layer {2 if fault.code == 202 else fault.layer}"
        assert identity == (None if fault.feature is None or fault.layer is None else 100 * fault.layer + fault.feature)


def test_further_faults_of_a_tile(tmp_path: pathlib.Path) -> None:
    """They are counted by code and layer, kept in their order, and the journal has them as they were."""
    further = Further.of_lines(MADE, iter([text for text, _, _ in FAULTS]))
    assert further is not None and further.count == 5
    assert sorted(further.counts, key=str) == sorted([(201, "roads", 1), (202, "water", 1), (402, "water", 1), (402, "roads", 1), (402, "ä", 1)], key=str)
    assert list(further.each()) == [OneFault(json.loads(text), name, identity) for text, name, identity in FAULTS]
    assert Further.of_lines(MADE, iter([])) is None
    partition = Partition(0, 5, (1, 1), (1, 1), 1)
    finding = Finding(1, 1, 9, fault={"code": 201, "layer": 0}, further=further)
    kept = Journal(str(tmp_path / "journal.jsonl"), {"format": 2})
    kept.add(Judged(partition, "a", findings=[finding]))
    [read] = kept.judged(partition).findings
    kept.close()
    assert read == finding and read.count == 6


def test_many_faults_are_kept_short() -> None:
    """A line takes some bytes where its text has fifty."""
    lines = [f'{{"code":402,"feature":{at},"index":0,"layer":0}}' for at in range(20_000)]
    further = Further.of_lines(layer("water", 2, *(20_000 * [point(1, False)])), iter(lines))
    assert further is not None and further.counts == [(402, "water", 20_000)]
    assert len(further.packed) < 10 * len(lines)

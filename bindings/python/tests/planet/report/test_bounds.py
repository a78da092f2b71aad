"""What the report keeps of a run, and its texts: without a browser."""
from __future__ import annotations

import base64
import gc
import gzip
import json
import pathlib
import re
import sys
from types import FunctionType, ModuleType
from typing import Any, Dict, List, Optional

import pytest
from planet.helpers.report_samples import TILES, MemorySource, Sample, run_of

from mvtgate.planet.records import Extent, Finding, Judged, Partition, Timed
from mvtgate.planet.report import Report, ReportPartsMissing, limits, parts
from mvtgate.planet.report.classes import class_of, worse
from mvtgate.planet.report.counts import CountsByCode, Label, Labels
from mvtgate.planet.report.excerpt import excerpt_of
from mvtgate.planet.report.firsts import Found
from mvtgate.planet.report.pictures import Pictures, link_text
from mvtgate.planet.report.texts import capital, cut, prose, rate_text, share_text, size_text, time_text
from mvtgate.planet.report.tile_map import ZoomCells

FAULT: Dict[str, Any] = json.loads((TILES / "expected/crossing_edges.check").read_text().splitlines()[0])
PLANET = Extent(14, 4**14, 0, 2**14 - 1, 0, 2**14 - 1)
RUN: Dict[str, Any] = {**run_of(), "sources": [{"path": "planet", "kind": "mbtiles", "tiles": 4**14, "zooms": [vars(PLANET)]}]}


def judged(number: int, count: int, names: Optional[List[str]] = None) -> Judged:
    """A column of the planet, in which so many tiles have a fault."""
    partition = Partition(0, 14, (number, 0), (number, 2**14 - 1), 2**14)
    it = Judged(partition, "a worker", 2**20, 2**21, 1.0, [(number >> 6, row, 64) for row in range(256)])
    it.findings = [
        Finding(number, row, 1000, 0.1, None, FAULT, names[row] if names else "water", row, True) for row in range(count)
    ]
    it.slowest = [Timed(number + row / 100, number, row, 1000) for row in range(10)]
    return it


def size_of(report: Report) -> int:
    """How many bytes a report keeps, in all its objects."""
    seen: Dict[int, int] = {}
    waiting: List[Any] = [vars(report)]
    while waiting:
        it = waiting.pop()
        if id(it) not in seen and not isinstance(it, (type, FunctionType, ModuleType)):
            seen[id(it)] = sys.getsizeof(it)
            waiting += gc.get_referents(it)
    return sum(seen.values())


def test_memory_does_not_grow() -> None:
    """100,000 layers with names of their own, all with a fault, and 16,000,000 tiles."""
    report = Report(RUN, [MemorySource("planet", {})])
    sizes = []
    for number in range(1000):
        report.add(judged(number, 100, [f"layer {number} {row} {'m' * 300}" for row in range(100)]))
        report.add_unjudged(Partition(0, 14, (number, 0), (number, 9), 10), f"it killed worker {number}")
        if number in (199, 999):
            sizes.append(size_of(report))
    assert sizes[0] < 2_000_000 and abs(sizes[1] - sizes[0]) < 5_000
    layers = report.counts.layers(504)
    assert len(layers) == limits.LAYERS + 1 and layers[-1] == (Label("other layers", False), 100_000 - limits.LAYERS)
    assert all(len(label.text) <= limits.NAME_LENGTH for label, _ in layers)
    assert report.totals.faulty == 100_000 and report.totals.tiles == 1000 * (2**14 + 10)


def test_file_does_not_grow(tmp_path: pathlib.Path, report_parts: None) -> None:
    """A whole planet of cells, with a fault in each."""
    report = Report(RUN, [MemorySource("planet", {})])
    for number in range(0, 2**14, 64):
        it = judged(number, 0)
        it.findings = [Finding(number, row, 1000, 0.1, None, FAULT, "water") for row in range(0, 2**14, 64)]
        report.add(it)
    report.write(tmp_path / "report.html", 1.0, 1)
    assert (tmp_path / "report.html").stat().st_size < 600_000


@pytest.fixture
def report_parts(tmp_path: pathlib.Path, monkeypatch: pytest.MonkeyPatch) -> None:
    """A script and a style in a folder of their own."""
    folder = tmp_path / "parts"
    folder.mkdir()
    (folder / "report.js").write_text("'use strict'")
    (folder / "report.css").write_text("body {}")
    monkeypatch.setattr(parts, "_PLACES", (tmp_path, folder))


def test_parts_missing(tmp_path: pathlib.Path, monkeypatch: pytest.MonkeyPatch) -> None:
    monkeypatch.setattr(parts, "_PLACES", (tmp_path,))
    with pytest.raises(ReportPartsMissing, match=r"run tools/page"):
        Report(run_of(), []).write(tmp_path / "report.html", 1.0, 1)
    assert list(tmp_path.iterdir()) == []


def test_part_that_ends_its_element(tmp_path: pathlib.Path, report_parts: None) -> None:
    (tmp_path / "parts/report.js").write_text("'</script>'")
    with pytest.raises(ValueError, match="would end its element"):
        Report(run_of(), []).write(tmp_path / "report.html", 1.0, 1)


def test_policy(tmp_path: pathlib.Path, report_parts: None) -> None:
    """It allows the script and the style by their sums, and nothing else."""
    Report(run_of(), []).write(tmp_path / "report.html", 1.0, 1)
    text = (tmp_path / "report.html").read_text("utf-8")
    found = re.search(r'Content-Security-Policy" content="([^"]*)"', text)
    assert found
    sums = [parts.sum_of(it) for it in ("'use strict'", "body {}")]
    assert found[1].split("; ") == [
        "default-src 'none'", f"script-src 'sha256-{sums[0]}'", f"style-src 'sha256-{sums[1]}'", "img-src data:", "base-uri 'none'",
        "form-action 'none'"]


def test_first_names_are_kept() -> None:
    counts = CountsByCode(Labels(2, "none", "others"))
    for name in ("a", "b", "c", None, "a", "d", "", "b"):
        counts.add(301, name, 1)
    counts.add(302, "c", 1)
    assert counts.codes() == ((301, 8), (302, 1))
    named = [(Label("a"), 2), (Label("b"), 2)]
    assert counts.layers(301) == (*named, (Label("none", False), 1), (Label("others", False), 3))
    assert counts.layers(302) == ((Label("others", False), 1),)


def test_a_layer_may_be_named_like_a_label() -> None:
    counts = CountsByCode(Labels(9, "none", "others"))
    counts.add(301, "none", 1)
    counts.add(301, None, 1)
    counts.add(302, None, 2)
    counts.add(302, "none", 1)
    assert counts.layers(301) == ((Label("none"), 1), (Label("none", False), 1))
    assert counts.layers(302) == ((Label("none", False), 2), (Label("none"), 1))


def test_slowest_of_equal_ones() -> None:
    """Of tiles that took as long the first ones are kept, in whichever part they were."""
    report = Report(RUN, [])
    for number in range(30):
        it = judged(number, 0)
        it.slowest = [Timed(1.0, number, row, 1) for row in range(3)]
        report.add(it)
    places = [(place.column, place.row) for place, _ in report.slowest.tiles]
    assert places == [(number, row) for number in range(30) for row in range(3)][: limits.SLOWEST]


def test_classes() -> None:
    names = [class_of(code).name for code in (101, 111, 201, 304, 406, 507)]
    assert names == ["wire", "wire", "layers", "tags", "commands", "polygons"]


def test_worse() -> None:
    assert [worse(504, 101), worse(101, 504), worse(0, 504), worse(504, 0), worse(0, 0)] == [101, 101, 504, 504, 0]


def cells_of(cells: ZoomCells) -> Dict[str, List[int]]:
    packed = base64.b64decode(cells.members()["cells"])
    found: Dict[str, List[int]] = json.loads(gzip.decompress(packed))
    return found


def test_cells() -> None:
    cells = ZoomCells(Extent(3, 5, 2, 4, 1, 2))
    it = Judged(Partition(0, 3, (2, 5), (3, 6), 3), "a worker", cells=[(0, 0, 1), (0, 1, 1), (1, 0, 1)])
    it.findings = [Finding(2, 1, 10, fault={"code": 504}), Finding(3, 1, 10, error="cut")]
    cells.add(it)
    cells.add_unjudged(Partition(0, 3, (4, 5), (4, 5), 2), kind="mbtiles")
    assert cells_of(cells) == {
        "tiles": [1, 1, 0, 1, 0, 0],
        "faulty": [1, 0, 0, 0, 0, 0],
        "unjudged": [0, 1, 0, 0, 0, 0],
        "worst": [504, 0, 0, 0, 0, 0],
        "lost": [0, 0, 0, 0, 0, 1],
    }
    assert (cells.tiles, cells.faulty, cells.unjudged, cells.worst) == (5, 1, 3, 504)


@pytest.mark.parametrize("first, last, kind, lost", [
    ((4, 1), (4, 1), "folder", [2]),
    ((4, 5), (4, 6), "mbtiles", [2, 5]),
    ((3, 2), (4, 1), "folder", [1, 2, 4, 5]),
    ((2, 1), (9, 9), "folder", [0, 1, 2, 3, 4, 5]),
])  # fmt: skip
def test_cells_of_what_was_not_judged(first: Any, last: Any, kind: str, lost: List[int]) -> None:
    cells = ZoomCells(Extent(3, 5, 2, 4, 1, 2))
    cells.add_unjudged(Partition(0, 3, first, last, 1), kind)
    assert [at for at, it in enumerate(cells_of(cells)["lost"]) if it] == lost


RECORD: Dict[str, Any] = {
    "layers": [
        {"extent": 4096, "features": [], "keys": ["a"], "name": "first", "values": [], "version": 2},
        {
            "extent": 512,
            "features": [
                {"geometry": [9, 0, 0], "id": 1, "tags": [], "type": 1},
                {"geometry": [9, 2, 2], "id": 2**63, "tags": [0, 0], "type": 1},
            ],
            "keys": ["k"],
            "name": "second",
            "values": [{"uint": 2**64 - 1}],
            "version": 1,
        },
    ]
}


def test_excerpts() -> None:
    """What isn't drawn is left out, and numbers that JavaScript can't hold become texts."""
    feature = {"geometry": [9, 2, 2], "id": str(2**63), "tags": [0, 0], "type": 1}
    layer = {"extent": 512, "name": "second", "version": 1, "features": {"1": feature}, "keys": [], "values": []}
    assert excerpt_of(RECORD, {"code": 101}) is None
    assert excerpt_of(RECORD, {"code": 406, "layer": 1, "feature": 1}) == {"layers": {"1": layer}}
    of_tags = excerpt_of(RECORD, {"code": 303, "layer": 1, "feature": 1})
    assert of_tags == {"layers": {"1": {**layer, "keys": ["k"], "values": [{"uint": str(2**64 - 1)}]}}}
    of_layers = excerpt_of(RECORD, {"code": 201, "layer": 1})
    assert of_layers and [it["features"] for it in of_layers["layers"]] == [[], [{"type": 1}, {"type": 1}]]
    with pytest.raises(LookupError):
        excerpt_of(RECORD, {"code": 406, "layer": 1, "feature": 2})


def pictures_of(*tiles: bytes, size: Optional[int] = None, lost: bool = False) -> List[Optional[str]]:
    """For each tile with a fault the reason why it has no picture; '' for a picture, and None for none that is wanted."""
    places = {(3, 1, row): Sample(it) for row, it in enumerate(tiles)}
    source = MemorySource("some", places, lost=list(places) if lost else [])
    finding = [Finding(1, row, len(it) if size is None else size, fault={**FAULT}) for row, it in enumerate(tiles)]
    report = Report(run_of(source), [source])
    partition = Partition(0, 3, (1, 0), (1, 7), len(tiles))
    report.add(Judged(partition, "a worker", findings=finding))
    listed: List[Found] = list(report.firsts.of(504))
    found = Pictures([source], lambda tile: {"layers": RECORD["layers"][1:]}).of(listed)
    return [None if it is None else it.reason or "" for it in found]


TILE = (TILES / "crossing_edges.mvt").read_bytes()


def test_three_pictures() -> None:
    assert pictures_of(*[TILE] * 5) == ["", "", "", None, None]
    assert limits.PICTURED == 3


def test_no_picture() -> None:
    large = bytes(limits.TILE_SIZE + 1)
    assert pictures_of(large, TILE, large, TILE, TILE, TILE) == [
        "No picture: the tile has more than 256.0 KiB.", "", "No picture: the tile has more than 256.0 KiB.", "", "", None]
    changed = "No picture: the tile couldn't be read again as it was judged."
    assert pictures_of(TILE, size=len(TILE) + 1) == pictures_of(TILE, lost=True) == pictures_of(b"\x1f\x8bx") == [changed]


def test_room_for_pictures(monkeypatch: pytest.MonkeyPatch) -> None:
    monkeypatch.setattr("mvtgate.planet.report.pictures.PICTURES_SIZE", 500)
    no_room = "No picture: the report has no room for this tile."
    assert pictures_of(TILE, TILE, TILE) == ["", no_room, no_room]


def test_links_are_packed_where_that_is_shorter() -> None:
    assert link_text(TILE) == base64.urlsafe_b64encode(TILE).decode().rstrip("=")
    long = bytes(5000)
    assert len(link_text(long)) < 100
    assert gzip.decompress(base64.urlsafe_b64decode(link_text(long) + "==")) == long


def test_texts() -> None:
    assert [size_text(it) for it in (0, 1, 1023, 1024, 2**20 * 3 // 2, 2**60)] == [
        "0 bytes", "1 byte", "1,023 bytes", "1.0 KiB", "1.5 MiB", "1,048,576.0 TiB"]
    assert [time_text(it) for it in (0.00021, 0.021, 0.9996, 1.25, 59.94, 61, 3599, 3600, 90061, 200000)] == [
        "0.21 ms", "21 ms", "1.0 s", "1.2 s", "59.9 s", "1 min 1 s", "59 min 59 s", "1 h 0 min", "25 h 1 min", "2 d 8 h"]
    assert [share_text(*it) for it in ((0, 5), (5, 5), (1, 3), (1, 10**6), (999_999, 10**6), (0, 0), (7, 1000))] == [
        "0%", "100%", "33.3%", "< 0.01%", "99.99%", "0%", "0.70%"]
    assert [rate_text(*it) for it in ((0, 0), (5, 2), (10**8, 3600))] == ["0.0", "2.5", "27,778"]
    assert cut("m" * 500) == "m" * 159 + "…" and cut("a\x00\ud800") == "a\ufffd\ufffd"
    assert prose("of `a<b` and <c>") == "of <code>a&lt;b</code> and &lt;c&gt;"
    assert capital("a. b") == "A. b"

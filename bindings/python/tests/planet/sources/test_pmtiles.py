"""PMTiles archives as sources: which tiles they have, from files and from a web server, and archives that are broken or hostile."""
from __future__ import annotations

import dataclasses
import gc
import gzip
import json
import os
import pathlib
import re
import struct
import subprocess
import sys
import time
from typing import Callable, Dict, List, Sequence, Tuple

import pytest

import mvtgate
from mvtgate.planet.mending.copy import Replaced
from mvtgate.planet.mending.pmtiles import CopyOfPmtiles
from mvtgate.planet.records import Place
from mvtgate.planet.report.tile_map import TileMap
from mvtgate.planet.since import EarlierRun
from mvtgate.planet.sources import NotASource, SourceChanged, open_source
from mvtgate.planet.sources.pmtiles import ranges
from mvtgate.planet.sources.pmtiles.ids import box_of, first_id, id_of, place_of
from planet.helpers.archives import Written, archive, directory, serving, tile_id, write_archive
from planet.helpers.runs import FAULTY as FAULTY_STATUS
from planet.helpers.runs import SAMPLE, Tile, environment, records, run

VALID, FAULTY, NO_KEY = (SAMPLE[it].tile for it in ("point", "crossing_edges", "no_such_key"))


def tiles_of(path: object, most: int = 1000) -> List[Tuple[int, int, int, bytes]]:
    """Zoom, column, row and bytes of all tiles that a source gives, partition by partition."""
    source = open_source(str(path))
    found = []
    for part in source.partitions(0, most):
        stored = list(source.tiles(part))
        assert len(stored) == part.tiles and all(it.error is None for it in stored)
        found += [(part.zoom, it.column, it.row, it.data) for it in stored]
    return found


def sample_tiles() -> List[Tile]:
    """Four zooms: each tile of the first three, and some of zoom 9, with contents that are the same and others."""
    places = [(zoom, column, row) for zoom in range(3) for column in range(1 << zoom) for row in range(1 << zoom)]
    places += [(9, column, row) for column in range(100, 120) for row in range(300, 310)]
    contents = [VALID, FAULTY, b"", gzip.compress(VALID)]
    return [Tile(*place, contents[at * at % 3] or VALID + b"\x22\x01a") for at, place in enumerate(places)]


def expected(tiles: Sequence[Tile]) -> List[Tuple[int, int, int, bytes]]:
    return sorted((it.zoom, it.column, it.row, it.stored) for it in tiles)


@pytest.mark.parametrize(
    ("place", "expected_id"),
    # (the specification's own examples)
    [((0, 0, 0), 0), ((1, 0, 0), 1), ((1, 0, 1), 2), ((1, 1, 1), 3), ((1, 1, 0), 4), ((2, 0, 0), 5), ((12, 3423, 1763), 19078479)],
)
def test_ids(place: Tuple[int, int, int], expected_id: int) -> None:
    assert id_of(*place) == expected_id and place_of(expected_id) == place


def test_ids_along_the_curve() -> None:
    """Each tile once, each beside the one before; and as the specification's own code has them."""
    for zoom in range(6):
        places = [place_of(it) for it in range(first_id(zoom), first_id(zoom + 1))]
        assert len(set(places)) == 4**zoom and {it[0] for it in places} == {zoom}
        assert all(abs(one[1] - other[1]) + abs(one[2] - other[2]) == 1 for one, other in zip(places, places[1:]))
        assert [tile_id(*it) for it in places] == list(range(first_id(zoom), first_id(zoom + 1)))
    assert place_of(first_id(31) - 1)[0] == 30


def test_boxes() -> None:
    for first, last in [(0, 0), (1, 4), (5, 20), (5, 5), (7, 18), (21, 84), (30, 61), (85, 340), (100, 200), (341, 1364)]:
        places = [place_of(it) for it in range(first, last + 1)]
        columns, rows = [it[1] for it in places], [it[2] for it in places]
        assert box_of(first, last) == (min(columns), max(columns), min(rows), max(rows))


@pytest.mark.parametrize("leaf", [0, 1, 7, 100])
@pytest.mark.parametrize("packing", [1, 2])
@pytest.mark.parametrize("most", [1, 10, 10_000])
def test_tiles(tmp_path: pathlib.Path, leaf: int, packing: int, most: int) -> None:
    """All tiles, each once, whatever the directories and the partitions are like."""
    tiles = sample_tiles()
    path = write_archive(tmp_path / "a.pmtiles", tiles, leaf, packing)
    assert sorted(tiles_of(path, most)) == expected(tiles)


def test_survey_and_places(tmp_path: pathlib.Path) -> None:
    tiles = sample_tiles()
    source = open_source(str(write_archive(tmp_path / "a.pmtiles", tiles, 7)))
    survey = {it.zoom: it for it in source.survey()}
    assert {zoom: it.tiles for zoom, it in survey.items()} == {0: 1, 1: 4, 2: 16, 9: 200}
    last = survey[9]
    assert last.first_column <= 100 and last.last_column >= 119 and last.first_row <= 300 and last.last_row >= 309
    for it in tiles:
        assert list(source.at(it.zoom, it.column, it.row)) == [it.stored]
    assert list(source.at(9, 0, 0)) == [] and source.tile(3, 0, 0) is None


def test_file_is_closed(tmp_path: pathlib.Path) -> None:
    """By a call, or with the source itself: nothing that it keeps leads back to it. A file that is no archive isn't kept open either."""
    path, broken = tmp_path / "it.pmtiles", tmp_path / "broken.pmtiles"
    write_archive(path, sample_tiles(), leaf=8)
    broken.write_bytes(path.read_bytes()[:-1])
    gc.disable()
    try:
        before = os.listdir("/proc/self/fd")
        source = open_source(str(path))
        assert source.survey() and len(os.listdir("/proc/self/fd")) == len(before) + 1
        source.close()
        assert len(os.listdir("/proc/self/fd")) == len(before)
        source = open_source(str(path))
        source.survey()
        del source
        assert len(os.listdir("/proc/self/fd")) == len(before)
        with pytest.raises(NotASource):
            open_source(str(broken))
        assert len(os.listdir("/proc/self/fd")) == len(before)
    finally:
        gc.enable()


def test_many_tiles_of_one_content(tmp_path: pathlib.Path) -> None:
    """A run of a million tiles is known without going over them, and a part of it is read at once."""
    entries: List[Written] = [(first_id(12), 1_000_000, 0, len(VALID))]
    (tmp_path / "a.pmtiles").write_bytes(archive(gzip.compress(directory(entries)), b"", VALID))
    source = open_source(str(tmp_path / "a.pmtiles"))
    assert [it.tiles for it in source.survey()] == [1_000_000]
    part = next(iter(source.partitions(0, 10)))
    stored = list(source.tiles(part))
    assert len(stored) == 10 and {it.data for it in stored} == {VALID} and len({it.content for it in stored}) == 1


Hostile = Callable[[], bytes]


def of_entries(*entries: Written, data: bytes = VALID, leaves: bytes = b"") -> bytes:
    return archive(gzip.compress(directory(entries)), leaves, data)


def looping() -> bytes:
    """Leaf directories that lead to themselves."""
    leaf = b""
    for _ in range(8):
        leaf = gzip.compress(directory([(0, 0, 0, max(1, len(leaf)))]))
    return of_entries((0, 0, 0, len(leaf)), leaves=leaf)


def deep() -> bytes:
    """Leaf directories below each other, more than there may be."""
    leaves, entry = b"", (0, 1, 0, len(VALID))
    for _ in range(6):
        packed = gzip.compress(directory([entry]))
        entry = (0, 0, len(leaves), len(packed))
        leaves += packed
    return of_entries(entry, leaves=leaves)


HOSTILE: List[Tuple[str, Hostile, str]] = [
    ("looping", looping, "below the root|broken|cut"),
    ("deep", deep, "below the root"),
    ("overlapping", lambda: of_entries((0, 3, 0, 5), (2, 1, 0, 5)), "overlap"),
    ("no_bytes", lambda: of_entries((0, 1, 0, 0)), "no bytes"),
    ("beyond_zoom_30", lambda: of_entries((first_id(31) - 1, 2, 0, 5)), "above 30"),
    ("too_many", lambda: of_entries((first_id(20), 1 << 40, 0, 5)), "more than"),
    ("claimed_entries", lambda: archive(gzip.compress(b"\xff\xff\xff\xff\xff\x1f" + bytes(100)), b"", VALID), "cut"),
    ("long_number", lambda: archive(gzip.compress(b"\xff" * 40), b"", VALID), "too long"),
    ("first_offset", lambda: archive(gzip.compress(b"\x01\x00\x01\x05\x00"), b"", VALID), "first offset"),
    ("bytes_after", lambda: archive(gzip.compress(directory([(0, 1, 0, 5)]) + b"\0"), b"", VALID), "after the end"),
    ("bomb", lambda: archive(gzip.compress(bytes(1 << 26)), b"", VALID), "larger than"),
    ("cut_directory", lambda: archive(gzip.compress(directory([(0, 1, 0, 5)]))[:-5], b"", VALID), "cut"),
    ("no_gzip", lambda: archive(b"nothing", b"", VALID), "broken"),
    ("leaf_beyond", lambda: of_entries((0, 0, 1 << 50, 100)), "beyond"),
    ("leaf_for_others", lambda: of_entries((4, 0, 0, 30), leaves=gzip.compress(directory([(0, 1, 0, 5)]), mtime=0).ljust(30, b"\0")), "overlap|after"),
]


@pytest.mark.parametrize(("data", "why"), [it[1:] for it in HOSTILE], ids=[it[0] for it in HOSTILE])
def test_hostile_directories(tmp_path: pathlib.Path, data: Hostile, why: str) -> None:
    (tmp_path / "a.pmtiles").write_bytes(data())
    with pytest.raises(NotASource, match=why):
        open_source(str(tmp_path / "a.pmtiles")).survey()


@pytest.mark.parametrize("is_root", [True, False])
def test_long_directories(tmp_path: pathlib.Path, is_root: bool) -> None:
    """Nothing is reserved for a length that can't be that of a directory, and the archive is named."""
    path, length = tmp_path / "a.pmtiles", 1 << 39
    whole = of_entries((0, 0, 0, length))
    # (the header has offset and length of the root at 8, and of the leaf directories at 40)
    at = 8 if is_root else 40
    path.write_bytes(whole[:at] + struct.pack("<QQ", len(whole), length) + whole[at + 16 :])
    os.truncate(path, len(whole) + length)
    with pytest.raises(NotASource, match=f"^{re.escape(str(path))}: a directory is larger than 2097152 bytes$"):
        open_source(str(path)).survey()


@pytest.mark.parametrize(
    ("data", "why"),
    [
        (lambda: archive(b"", b"", b"", version=2), "version 2"),
        (lambda: archive(b"", b"", b"", kind=2), "PNG"),
        (lambda: archive(b"", b"", b"", packing=4), "Zstandard"),
        # (byte 98 of the header says how tiles are packed: of brotli's own bytes nothing tells what they are)
        (lambda: archive(b"", b"", b"")[:98] + b"\x03" + archive(b"", b"", b"")[99:], "its tiles are packed by brotli"),
        (lambda: b"PMTiles\x03", "no PMTiles archive"),
        (lambda: archive(gzip.compress(directory([])), b"", VALID)[:-1], "beyond its end"),
        (lambda: archive(b"", b"", b"")[:40] + struct.pack("<QQ", 1 << 63, 1 << 63) + archive(b"", b"", b"")[56:], "beyond its end"),
    ],
    ids=["version", "pictures", "packing", "brotli", "short", "cut", "beyond"],
)
def test_what_is_no_archive(tmp_path: pathlib.Path, data: Hostile, why: str) -> None:
    (tmp_path / "a.pmtiles").write_bytes(data())
    with pytest.raises(NotASource, match=why):
        open_source(str(tmp_path / "a.pmtiles"))


def test_tile_beyond_the_end(tmp_path: pathlib.Path) -> None:
    """One tile can't be read, the others can."""
    (tmp_path / "a.pmtiles").write_bytes(of_entries((0, 1, 0, len(VALID)), (1, 1, 3, 1 << 40)))
    source = open_source(str(tmp_path / "a.pmtiles"))
    stored = [it for part in source.partitions(0, 10) for it in source.tiles(part)]
    assert [it.error is None for it in stored] == [True, False] and "beyond" in str(stored[1].error)


def test_changed_file(tmp_path: pathlib.Path) -> None:
    path = write_archive(tmp_path / "a.pmtiles", sample_tiles())
    source = open_source(str(path))
    stamp = source.stamp()
    source.check(stamp)
    write_archive(path, sample_tiles()[:5])
    with pytest.raises(SourceChanged):
        source.check(stamp)


@pytest.fixture
def quick_pauses(monkeypatch: pytest.MonkeyPatch) -> None:
    monkeypatch.setattr(ranges, "_PAUSE", 0.01)


@pytest.fixture
def archive_of_samples(tmp_path: pathlib.Path) -> bytes:
    return write_archive(tmp_path / "a.pmtiles", sample_tiles(), 50).read_bytes()


@pytest.mark.usefixtures("quick_pauses")
class TestWeb:
    """The same from a web server by ranges."""

    def test_names(self, archive_of_samples: bytes) -> None:
        """Letters that aren't ASCII, and spaces, are sent as their bytes; what is sent so already stays."""
        for server in serving(archive_of_samples):
            top = server.address.rpartition("/")[0]
            for name, sent in [("zürich town.pmtiles?at=ü%20#top", "/z%C3%BCrich%20town.pmtiles?at=%C3%BC%20"), ("z%C3%BC.pmtiles", "/z%C3%BC.pmtiles")]:
                assert open_source(f"{top}/{name}").survey() and server.asked == sent
            with pytest.raises(NotASource, match="IPv6"):
                open_source("http://[::1/a.pmtiles")

    def test_tiles(self, archive_of_samples: bytes) -> None:
        for server in serving(archive_of_samples):
            assert sorted(tiles_of(server.address)) == expected(sample_tiles())
            # (the tiles of a partition lie together: a request for each would be more than two hundred)
            assert server.requests < 60

    def test_busy_server(self, archive_of_samples: bytes) -> None:
        for server in serving(archive_of_samples):
            server.failing = 3
            assert sorted(tiles_of(server.address)) == expected(sample_tiles())

    def test_refused(self, archive_of_samples: bytes) -> None:
        """A server without ranges, one that stays busy, one that cuts its answers off, and none."""
        for server in serving(archive_of_samples):
            server.has_ranges = False
            with pytest.raises(NotASource, match="without ranges"):
                open_source(server.address)
            server.has_ranges, server.failing = True, 100
            with pytest.raises(NotASource, match="503"):
                open_source(server.address)
            server.failing, server.cut = 0, 1
            with pytest.raises(NotASource):
                open_source(server.address)
            address = server.address
        with pytest.raises(NotASource):
            open_source(address)

    @pytest.mark.parametrize("address", ["http://a..b/x", f"http://{64 * 'a'}.example/x", "http://127.0.0.1:x/y", "http://a b/x", "http://[::1/x"])
    def test_address_that_is_none(self, address: str) -> None:
        """It is told at once, as one that nobody answers, and is no mistake in the program."""
        began = time.monotonic()
        with pytest.raises(NotASource, match=re.escape(address)):
            open_source(address)
        assert time.monotonic() - began < 5

    def test_hostile_server(self, archive_of_samples: bytes) -> None:
        """One that sends elsewhere, to an address that is none, and one that gives a size of more digits than Python reads."""
        for server in serving(archive_of_samples):
            for server.elsewhere, server.size in (("http://[::1", None), (None, "9" * 5000)):
                with pytest.raises(NotASource, match=re.escape(server.address)):
                    open_source(server.address)

    def test_changed_meanwhile(self, archive_of_samples: bytes) -> None:
        for server in serving(archive_of_samples):
            source = open_source(server.address)
            part = next(iter(source.partitions(0, 1000)))
            server.tag = '"2"'
            with pytest.raises(SourceChanged):
                list(source.tiles(part))


def places_of(path: object) -> Dict[Tuple[int, int, int], bytes]:
    return {it[:3]: it[3] for it in tiles_of(path)}


def test_run_and_mended_copy(tmp_path: pathlib.Path, scheduler: str) -> None:
    """Each fault is found at its place, and in the copy all others are as they were. The copy has no fault of a polygon."""
    tiles = [it if it.stored == VALID else Tile(it.zoom, it.column, it.row, gzip.compress(FAULTY)) for it in sample_tiles()]
    tiles += [Tile(10, 500, it, NO_KEY if it % 2 else gzip.compress(FAULTY)) for it in range(300, 310)]
    path, copy = write_archive(tmp_path / "a.pmtiles", tiles, 50), tmp_path / "b.pmtiles"
    it = run(tmp_path / "out", path, "--mend", copy, "--scheduler", scheduler, "--partition", 60)
    assert it.process.returncode == FAULTY_STATUS, it.stderr
    faulty = {(it.zoom, it.column, it.row) for it in tiles if it.stored != VALID}
    found_faults = records(tmp_path / "out/faults.jsonl")
    assert {(it["zoom"], it["column"], it["row"]) for it in found_faults} == faulty
    found = places_of(copy)
    assert found.keys() == {(it.zoom, it.column, it.row) for it in tiles}
    for tile in tiles:
        stored = found[tile.zoom, tile.column, tile.row]
        if tile.stored in (VALID, NO_KEY):
            assert stored == tile.stored
        else:
            assert gzip.decompress(stored) == mvtgate.mend(FAULTY).tile
    again = run(tmp_path / "again", copy, "--scheduler", scheduler)
    assert {it["fault"]["code"] for it in records(tmp_path / "again/faults.jsonl")} == {302} and again.process.returncode == FAULTY_STATUS


def test_copy_out_of_order(tmp_path: pathlib.Path) -> None:
    """Of an archive whose tiles aren't stored in the order of their ids."""
    data, entries = b"", []
    for number in reversed(range(40)):
        stored = FAULTY + b"\x82\x01\x01" + bytes([number]) if number % 3 else VALID + b"\x82\x01\x01" + bytes([number])
        entries.append((number, 1, len(data), len(stored)))
        data += stored
    path = tmp_path / "a.pmtiles"
    path.write_bytes(archive(gzip.compress(directory(sorted(entries))), b"", data))
    before = places_of(path)
    source = open_source(str(path))
    replaced = [
        Replaced(Place(0, *place), stored, b"\x82\x01\x03" + stored)
        for place, stored in sorted(before.items(), key=lambda it: id_of(*it[0]))
        if not stored.startswith(VALID)
    ]
    CopyOfPmtiles(source.path, str(tmp_path / "b.pmtiles")).write(iter(replaced))
    after = places_of(tmp_path / "b.pmtiles")
    assert after == {**before, **{(it.place.zoom, it.place.column, it.place.row): it.after for it in replaced}}


def test_command(tmp_path: pathlib.Path, archive_of_samples: bytes) -> None:
    """mvtgate-check takes an archive, by its name, by its first bytes and by its address."""
    (tmp_path / "a.pmtiles").write_bytes(archive_of_samples)
    (tmp_path / "other").write_bytes(archive_of_samples)
    wanted = {f"{it.zoom}/{it.column}/{it.row}" for it in sample_tiles() if it.stored == FAULTY}
    for server in serving(archive_of_samples):
        for word in (tmp_path / "a.pmtiles", tmp_path / "other", server.address):
            words = [sys.executable, "-m", "mvtgate", "check", "--json", "--jobs", "1", str(word)]
            it = subprocess.run(words, env=environment(), stdout=subprocess.PIPE, stderr=subprocess.PIPE, text=True, timeout=300)
            assert {json.loads(line)["tile"] for line in it.stdout.splitlines()} == wanted, it.stderr


def test_since(tmp_path: pathlib.Path, scheduler: str) -> None:
    """A later run takes over what an earlier one found, part by part, and judges the tiles that are others now."""
    tiles = sample_tiles()
    path = write_archive(tmp_path / "a.pmtiles", tiles, 50)
    run(tmp_path / "out", path, "--scheduler", scheduler, "--partition", 30)
    parts = list(open_source(str(path)).partitions(0, 30))
    earlier = EarlierRun(str(tmp_path / "out"))
    assert len(parts) > 5 and all(len(earlier.known(it).blocks) == 1 for it in parts)
    changed = [Tile(it.zoom, it.column, it.row, VALID if it.stored == FAULTY and it.zoom == 9 else it.stored) for it in tiles]
    write_archive(path, changed, 50)
    run(tmp_path / "later", path, "--scheduler", scheduler, "--since", tmp_path / "out")
    wanted = {(it.zoom, it.column, it.row) for it in changed if it.stored == FAULTY}
    assert {(it["zoom"], it["column"], it["row"]) for it in records(tmp_path / "later/faults.jsonl")} == wanted


def test_box_of_a_part_in_the_report(tmp_path: pathlib.Path) -> None:
    source = open_source(str(write_archive(tmp_path / "a.pmtiles", sample_tiles())))
    survey = source.survey()
    cells = TileMap([{"kind": source.kind, "zooms": [dataclasses.asdict(it) for it in survey]}])
    for part in source.partitions(0, 7):
        stored = list(source.tiles(part))
        columns, rows = [it.column for it in stored], [it.row for it in stored]
        box = cells.box_of(part)
        assert box.first_column <= min(columns) and max(columns) <= box.last_column
        assert box.first_row <= min(rows) and max(rows) <= box.last_row
        cells.add_unjudged(part)
    assert sum(it.unjudged for it in cells.zooms.values()) == len(sample_tiles())

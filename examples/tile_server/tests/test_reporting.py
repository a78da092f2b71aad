"""--report-only: each tile is sent as it would be without the gate, and what is wrong with it is told beside it."""
from __future__ import annotations

import gzip
import json
import pathlib
import stat
import tempfile
from typing import Dict, Iterator

import mvtgate
import pytest
from mvtgate import Fault

from conftest import (
    CLOSE_PONDS,
    COMMON_CORNER,
    FIELD,
    FIRST,
    GARDEN,
    GZIP,
    OUT_OF_MEMORY,
    PLACES,
    PLAIN,
    PONDS,
    ROW,
    TWO_CORNERS,
    TWO_NAMES,
    expect_fault,
    judged,
    lines_of,
    samples,
)
from running import Database, Reply, Server, path_of, tile_server

FAULT = "X-Tile-Fault"


@pytest.fixture(scope="module")
def folder() -> Iterator[pathlib.Path]:
    """Where the server leaves faulty tiles."""
    with tempfile.TemporaryDirectory(prefix="tile_server.") as made:
        yield pathlib.Path(made)


@pytest.fixture(scope="module")
def reporting(database: Database, folder: pathlib.Path) -> Iterator[Server]:
    """The server that only reports."""
    with tile_server(database.dsn, "--report-only", "--keep", str(folder)) as running:
        yield running


def without_report(answer: Reply) -> Dict[str, str]:
    """The headers of an answer that don't change from one to the next, without the report."""
    return {key: it for key, it in answer.headers.items() if key not in (FAULT, "Date")}


@pytest.mark.parametrize("column", FIRST)
def test_faulty_tile_is_sent(reporting: Server, ungated: Server, folder: pathlib.Path, column: int) -> None:
    before = len(lines_of(reporting, column))
    answer, wanted = (it.get(path_of(column), GZIP) for it in (reporting, ungated))
    assert (answer.status, answer.body, without_report(answer)) == (200, wanted.body, without_report(wanted))
    text = answer.headers[FAULT]
    fault = Fault.from_text(text)
    expect_fault(fault, FIRST[column])
    assert mvtgate.confirm(gzip.decompress(answer.body), text)
    (line,) = lines_of(reporting, column)[before:]
    assert f" WARNING tile 6/{column}/20 sent all the same: areas {ROW[column]}: {fault.code}: " in line and line.endswith(f" {text}")
    assert (folder / f"6-{column}-20.mvt").read_bytes() == gzip.decompress(answer.body)
    assert (folder / f"6-{column}-20.json").read_text() == text


def test_kept_files_are_for_everybody_and_whole(database: Database, tmp_path: pathlib.Path) -> None:
    kept, other = f"6-{CLOSE_PONDS}-20", f"6-{COMMON_CORNER}-20"
    with tile_server(database.dsn, "--report-only", "--keep", str(tmp_path)) as running:
        assert running.get(path_of(CLOSE_PONDS)).status == 200
        modes = {it.name: stat.S_IMODE(it.stat().st_mode) for it in tmp_path.iterdir()}
        assert modes == {f"{kept}.json": 0o644, f"{kept}.mvt": 0o644}
        # (no file can take the place of a folder)
        (tmp_path / f"{other}.mvt").mkdir()
        assert running.get(path_of(COMMON_CORNER)).status == 200
        assert f" ERROR tile 6/{COMMON_CORNER}/20 not kept: " in running.log()
        assert {it.name for it in tmp_path.iterdir()} == {*modes, f"{other}.mvt"}


@pytest.mark.parametrize("column", [FIELD, PLACES, PONDS, TWO_CORNERS])
@pytest.mark.parametrize("headers", [PLAIN, GZIP])
def test_valid_tile_has_no_report(reporting: Server, ungated: Server, headers: Dict[str, str], column: int) -> None:
    answer, wanted = (it.get(path_of(column), headers) for it in (reporting, ungated))
    assert judged(answer) and FAULT not in answer.headers
    assert (answer.body, without_report(answer)) == (wanted.body, without_report(wanted))
    assert lines_of(reporting, column) == []


def test_tile_without_features(reporting: Server) -> None:
    answer = reporting.get(path_of(GARDEN))
    assert (answer.status, answer.body) == (204, b"") and FAULT not in answer.headers


def test_what_a_client_has_is_reported_too(reporting: Server) -> None:
    first = reporting.get(path_of(COMMON_CORNER))
    again = reporting.get(path_of(COMMON_CORNER), {"If-None-Match": first.headers["Etag"]})
    assert (again.status, again.body, again.headers[FAULT]) == (304, b"", first.headers[FAULT])
    head = reporting.get(path_of(COMMON_CORNER), method="HEAD")
    assert (head.status, head.headers[FAULT]) == (200, first.headers[FAULT])


def test_reports_are_counted(database: Database) -> None:
    with tile_server(database.dsn, "--report-only") as running:
        for column in (CLOSE_PONDS, COMMON_CORNER, TWO_NAMES, FIELD):
            assert running.get(path_of(column)).status == 200
        assert samples(running, "tile_server_reported_total") == {("504", "areas", "6"): 2, ("304", "areas", "6"): 1}
        assert samples(running, "tile_server_refused_total") == {}
        assert samples(running, "tile_server_requests_total") == {("200", "6"): 4}


def test_by_feature(database: Database) -> None:
    with tile_server(database.dsn, "--report-only", "--profile", "feature") as running:
        answer = running.get(path_of(TWO_CORNERS))
        assert answer.status == 200
        expect_fault(Fault.from_text(answer.headers[FAULT]), (504, "layer 0, feature 0, polygon 1", (500, 500)))


def test_tile_that_is_too_long(database: Database, ungated: Server) -> None:
    with tile_server(database.dsn, "--report-only", "--max-bytes", "1000") as running:
        answer = running.get(path_of(PONDS))
        assert (answer.status, answer.body) == (200, ungated.get(path_of(PONDS)).body)
        assert json.loads(answer.headers[FAULT]) == {"unjudged": "too_long"}
        assert f" WARNING tile 6/{PONDS}/20 sent all the same: the tile has {len(answer.body)} bytes, and 1000 are" in running.log()
        assert samples(running, "tile_server_reported_total") == {("too_long", "other", "6"): 1}


def test_out_of_memory(database: Database, ungated: Server) -> None:
    with tile_server(database.dsn, "--report-only", program=["-c", OUT_OF_MEMORY]) as running:
        answer = running.get(path_of(FIELD))
        assert (answer.status, answer.body) == (200, ungated.get(path_of(FIELD)).body)
        assert json.loads(answer.headers[FAULT]) == {"unjudged": "out_of_memory"}
        assert f" WARNING tile 6/{FIELD}/20 sent all the same: memory for the check was refused" in running.log()
        assert samples(running, "tile_server_reported_total") == {("out_of_memory", "other", "6"): 1}

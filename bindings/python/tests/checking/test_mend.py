"""mvtgate-check --mend: the copies that it writes, what is said of them, and what it never writes over."""
from __future__ import annotations

import gzip
import pathlib
import zlib
from typing import Any, Dict, List

import pytest

import mvtgate
from checking.runs import CROSSING, OVERLAP, POINT, json_lines, last_line, mbtiles, run
from conftest import TOP
from mvtgate import Profile

FAULT, VALID, NO_KEY = CROSSING.read_bytes(), POINT.read_bytes(), (TOP / "tiles/no_such_key.mvt").read_bytes()
# (an empty ring of three points on a line is all of its feature)
NOTHING = (TOP / "tiles/ring_without_area.mvt").read_bytes()


@pytest.fixture
def folder(tmp_path: pathlib.Path) -> pathlib.Path:
    """Tiles with faults that can be mended, packed in each way, one that can't, and valid ones, in folders of each depth."""
    where = tmp_path / "tiles"
    (where / "3/1").mkdir(parents=True)
    stored = {
        "a.mvt": FAULT, "3/b.mvt": VALID, "3/1/2.mvt.gz": gzip.compress(FAULT), "3/1/3.pbf": zlib.compress(FAULT), "3/1/4.pbf": NO_KEY,
        "3/1/5.pbf": gzip.compress(VALID),
    }  # fmt: skip
    for name, content in stored.items():
        (where / name).write_bytes(content)
    return where


def files_below(folder: pathlib.Path) -> Dict[str, bytes]:
    return {str(it.relative_to(folder)): it.read_bytes() for it in folder.rglob("*") if it.is_file()}


@pytest.mark.parametrize("jobs", [1, 3])
def test_copies(folder: pathlib.Path, tmp_path: pathlib.Path, jobs: int) -> None:
    """Each that can be mended has one, of its name and packed as it is; nothing else is written, and the input stays."""
    before = files_below(folder)
    said = run("--mend", tmp_path / "out", "--jobs", jobs, folder)
    assert said.returncode == 1 and last_line(said) == "6 tiles: 2 valid, 4 with a fault; 3 mended, 1 not mended"
    made = files_below(tmp_path / "out")
    assert sorted(made) == ["3/1/2.mvt.gz", "3/1/3.pbf", "a.mvt"]
    wanted = mvtgate.mend(FAULT).tile
    assert made["a.mvt"] == wanted and mvtgate.check(wanted) is None
    assert gzip.decompress(made["3/1/2.mvt.gz"]) == zlib.decompress(made["3/1/3.pbf"]) == wanted
    assert files_below(folder) == before
    lines = {it.split(": ")[0].removeprefix(f"{folder}/"): it for it in said.stdout.splitlines()}
    assert lines["a.mvt"].endswith(" (mended: 1 feature)") and lines["3/1/4.pbf"].endswith(" (not mended)")
    # (what comes out is valid)
    assert run(tmp_path / "out").returncode == 0


def test_all_mended_is_no_fault(folder: pathlib.Path, tmp_path: pathlib.Path) -> None:
    said = run("--mend", tmp_path / "out", folder / "a.mvt", folder / "3/1/2.mvt.gz")
    assert said.returncode == 0 and last_line(said) == "2 tiles: 0 valid, 2 with a fault; 2 mended, 0 not mended"
    assert sorted(files_below(tmp_path / "out")) == ["2.mvt.gz", "a.mvt"]


def test_lines_of_json(folder: pathlib.Path, tmp_path: pathlib.Path) -> None:
    """They have the report of mend, or the fault that stays."""
    lines = {it["file"]: it for it in json_lines(run("--json", "--mend", tmp_path / "out", folder).stdout)}
    [change] = mvtgate.mend(FAULT).changed
    mended, stays = lines[f"{folder}/a.mvt"], lines[f"{folder}/3/1/4.pbf"]
    assert mended["mended"] is True and len(mended["changed"]) == 1
    assert (mended["changed"][0]["what"], mended["changed"][0]["cuts"]) == (change.what, change.cuts)
    assert (stays["mended"], stays["stays"]) == (False, stays["fault"])


def test_drop(tmp_path: pathlib.Path) -> None:
    """A feature that can't be mended is left out where that is asked for."""
    (tmp_path / "it.mvt").write_bytes(NOTHING)
    with pytest.raises(mvtgate.Refused):
        mvtgate.mend(NOTHING)
    kept = run("--mend", tmp_path / "kept", tmp_path / "it.mvt")
    assert kept.returncode == 1 and last_line(kept).endswith("; 0 mended, 1 not mended") and not files_below(tmp_path / "kept")
    said = run("--mend", tmp_path / "out", "--drop", tmp_path / "it.mvt")
    assert said.returncode == 0 and last_line(said).endswith("1 with a fault; 1 mended, without 1 feature, 0 not mended")
    assert said.stdout.endswith(" (mended: 0 features, 1 left out)\n")
    assert files_below(tmp_path / "out") == {"it.mvt": mvtgate.mend(NOTHING, drop=True).tile}


def test_profile(tmp_path: pathlib.Path) -> None:
    tile = OVERLAP.read_bytes()
    assert mvtgate.check(tile) is None
    assert run("--mend", tmp_path / "polygon", OVERLAP).returncode == 0 and not files_below(tmp_path / "polygon")
    assert run("--mend", tmp_path / "feature", "--profile", "feature", "--all", OVERLAP).returncode == 0
    assert files_below(tmp_path / "feature") == {OVERLAP.name: mvtgate.mend(tile, Profile.FEATURE).tile}


def refused(tmp_path: pathlib.Path, *words: object) -> str:
    before = files_below(tmp_path)
    said = run("--mend", *words)
    assert said.returncode == 3 and files_below(tmp_path) == before, said
    return last_line(said)


def test_never_over_anything(folder: pathlib.Path, tmp_path: pathlib.Path) -> None:
    """Not into what is judged, nor where something is."""
    for where in (folder, folder / "3", folder / "new", f"{tmp_path}/other/../tiles/new"):
        (tmp_path / "other").mkdir(exist_ok=True)
        assert "lies in a folder that is judged" in refused(tmp_path, where, folder)
    (tmp_path / "link").symlink_to(folder)
    assert "lies in a folder that is judged" in refused(tmp_path, tmp_path / "link/new", folder)
    full = tmp_path / "full"
    full.mkdir()
    (full / "a").write_text("")
    assert "isn't empty" in refused(tmp_path, full, folder)
    assert "File exists" in refused(tmp_path, full / "a", folder)


def test_two_of_one_name(folder: pathlib.Path, tmp_path: pathlib.Path) -> None:
    """The second one is told, and the first one stays."""
    said = run("--mend", tmp_path / "out", folder / "a.mvt", folder)
    assert said.returncode == 3 and last_line(said) == f"mvtgate-check: {tmp_path}/out/a.mvt: two files that were judged have this name"
    assert files_below(tmp_path / "out") == {"a.mvt": mvtgate.mend(FAULT).tile}


def test_that_cannot_be_written(folder: pathlib.Path, tmp_path: pathlib.Path) -> None:
    (tmp_path / "file").write_text("")
    said = run("--mend", tmp_path / "file/below", folder)
    assert said.returncode == 3 and last_line(said) == f"mvtgate-check: {tmp_path}/file/below: Not a directory"


def test_archives_are_the_planet_run_s(tmp_path: pathlib.Path) -> None:
    archive = mbtiles(tmp_path / "it.mbtiles", {(3, 1, 2): FAULT})
    said = run("--mend", tmp_path / "out", archive)
    assert said.returncode == 1 and said.stdout.endswith(" (not mended: mvtgate-planet --mend is for MBTiles files and PMTiles archives)\n")


WRONG: List[List[Any]] = [["--drop", CROSSING], ["--mend", "out", "-"], ["--mend", "out", CROSSING, "-"]]


@pytest.mark.parametrize("words", WRONG, ids=str)
def test_wrong_words(words: List[Any], tmp_path: pathlib.Path) -> None:
    said = run(*words, cwd=tmp_path, input="")
    assert said.returncode == 2 and "usage: mvtgate-check" in said.stderr and not list(tmp_path.iterdir())


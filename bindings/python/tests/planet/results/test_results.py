"""What a run writes of all sample tiles: each with one of the faults that are expected, and its advice, whoever judges how much at a time."""
from __future__ import annotations

import gzip
import json
import pathlib
import re
from typing import Any, List, NamedTuple

import pytest

import mvtgate
from conftest import SAMPLES, YES, Sample
from mvtgate import Fault, Profile
from planet.helpers.planets import Planet, full_zoom, names_by_reader
from planet.helpers.runs import FAULTY, PROGRAM, REFUSED, SAMPLE, VALID, VALID_STATUS, Run, Tile, expect_whole, journal, place, records, run, write_database

ZOOM = 7
WORKERS_AND_PARTITION = [(2, 20), (1, 4000), (3, 1)]


class Placed(NamedTuple):
    """A sample tile and where it is."""

    sample: Sample
    tile: Tile


def placed() -> List[Placed]:
    """All samples, at places that are no neighbours, each second one packed."""
    found = []
    for number, sample in enumerate(SAMPLES):
        stored = gzip.compress(sample.tile) if number % 2 else sample.tile
        found.append(Placed(sample, Tile(ZOOM, number * 7 % 128, number * 29 % 128, stored)))
    return found


class Result(NamedTuple):
    """A run of all samples."""

    path: pathlib.Path
    run: Run
    profile: Profile
    workers: int


@pytest.fixture(scope="module")
def database(tmp_path_factory: pytest.TempPathFactory) -> pathlib.Path:
    return write_database(tmp_path_factory.mktemp("samples") / "samples.mbtiles", [it.tile for it in placed()])


@pytest.fixture(scope="module", params=[*((Profile.POLYGON, *it) for it in WORKERS_AND_PARTITION), (Profile.FEATURE, 2, 10)], ids=str)
def result(request: Any, database: pathlib.Path, tmp_path_factory: pytest.TempPathFactory) -> Result:
    profile, workers, partition = request.param
    words = ["--advice", "--profile", profile.name.lower(), "--workers", workers, "--partition", partition]
    return Result(database, run(tmp_path_factory.mktemp("results") / "out", database, *words), profile, workers)


def accepted(it: Placed, profile: Profile) -> List[str]:
    """The lines of `check` that the sample may get. (Of a folder those by one profile may not be given.)"""
    return it.sample.lines.get(profile, it.sample.lines[Profile.POLYGON])


def in_order() -> List[Placed]:
    return sorted(placed(), key=lambda it: (it.tile.column, it.tile.tms_row))


def test_lines(result: Result) -> None:
    """Each has the place, size, fault, sentence and names that are known, and was confirmed."""
    faulty = [it for it in in_order() if YES not in accepted(it, result.profile)]
    lines = records(result.run.output / "faults.jsonl")
    assert len(lines) == len(faulty) > 80
    for it, line in zip(faulty, lines):
        fault, text = line["fault"], json.dumps(line["fault"], separators=(",", ":"), sort_keys=True)
        # (a quick verdict by `feature` may name another fault of the same feature)
        quick = mvtgate.check(it.sample.tile, result.profile, quick=True) if result.profile is Profile.FEATURE else None
        assert text in accepted(it, result.profile) or quick == Fault.from_text(text)
        expected = {**place(result.path, it.tile), "size": len(it.sample.tile), "fault": fault, "sentence": Fault.from_text(text).sentence}
        assert {key: line[key] for key in expected} == expected
        assert line["confirmed"] is True and 0 <= line["seconds"] < 5
        if it.sample.is_tile:
            assert (line["layer"], line["feature_id"]) == names_by_reader(it.sample.tile, text)
    assert result.run.process.returncode == 1
    valid = len(SAMPLES) - len(faulty)
    assert result.run.said == [f"{len(SAMPLES)} tiles: {valid} valid, {len(faulty)} with a fault; see {result.run.output / 'report.html'}"]


def test_advice(result: Result) -> None:
    """The pieces that `advise` of the package gives, in the order of the tiles."""
    expected = []
    for it in in_order():
        advice = mvtgate.advise(it.sample.tile) if it.sample.is_tile else []
        if advice:
            members = [{key: value for key, value in vars(one).items() if value is not None} for one in advice]
            expected.append({**place(result.path, it.tile), "count": len(advice), "advice": members[:20]})
    assert records(result.run.output / "advice.jsonl") == expected
    assert expected


def test_journal(result: Result) -> None:
    """A line for each part, and of each with a fault who judged and who confirmed it: two workers, where there are several."""
    partitions = journal(result.run.output)
    assert sum(it["partition"]["tiles"] for it in partitions) == len(SAMPLES)
    for it in partitions:
        has_fault = bool(it["findings"])
        assert (it["confirmed_by"] is not None) == has_fault
        assert not has_fault or (it["judged_by"] == it["confirmed_by"]) == (result.workers == 1)


def test_same_lines_whoever_judges(database: pathlib.Path, tmp_path: pathlib.Path, scheduler: str) -> None:
    """Byte for byte, but for the times."""
    texts = set()
    for number, partition in enumerate([5, 1000]):
        it = run(tmp_path / f"{number}", database, "--advice", "--scheduler", scheduler, "--partition", partition)
        texts.add(tuple(re.sub(r'"seconds": [0-9.e-]+', "", (it.output / name).read_text()) for name in ("faults.jsonl", "advice.jsonl")))
    assert len(texts) == 1


def test_all_valid(tmp_path: pathlib.Path, scheduler: str) -> None:
    path = write_database(tmp_path / "valid.mbtiles", [Tile(3, 1, 1, VALID), Tile(3, 1, 2, SAMPLE["empty"].tile)])
    it = run(tmp_path / "out", path, "--scheduler", scheduler)
    assert it.process.returncode == 0
    assert it.said == [f"2 tiles: 2 valid, 0 with a fault; see {it.output / 'report.html'}"]
    assert (it.output / "faults.jsonl").read_text() == "" and not (it.output / "advice.jsonl").exists()


@pytest.mark.parametrize("mark, said", [(b"\xff\xff!!deny", "1 not confirmed"), (b"\xff\xff!!full", "1 not judged")])
def test_checker_that_says_no_and_memory_that_is_refused(tmp_path: pathlib.Path, scheduler: str, mark: bytes, said: str) -> None:
    planet = full_zoom(tmp_path / "planet.mbtiles", 2, [(8, mark)])
    if mark.endswith(b"deny"):
        planet.lines[2, 2, 0]["confirmed"] = False
    else:
        planet.blame(2, 2, 0, len(planet.tiles[8].stored), "memory was refused")
    it = run(tmp_path / "out", planet.path, "--scheduler", scheduler)
    expect_whole(planet, it, status=2)
    assert it.said[-1].startswith("16 tiles: 15 valid, ") and f", {said}; see " in it.said[-1]


def test_memory_refused_for_advice(tmp_path: pathlib.Path, scheduler: str) -> None:
    """A tile has one line, also where it has a fault and its advice can't be made."""
    planet = full_zoom(tmp_path / "planet.mbtiles", 2, [(8, b"\xff\xff!!advi")])
    planet.blame(2, 2, 0, len(planet.tiles[8].stored), "memory was refused")
    it = run(tmp_path / "out", planet.path, "--scheduler", scheduler, "--advice")
    expect_whole(planet, it, status=2)


WRONG_WORDS = [["--workers", "0"], ["--partition", "x"], ["--profile", "all"], ["--partition", "-5"], ["--nothing"]]


@pytest.mark.parametrize("words", WRONG_WORDS, ids=str)
def test_wrong_words(tmp_path: pathlib.Path, planet: Planet, words: List[str]) -> None:
    it = run(tmp_path / "out", planet.path, *words)
    assert it.process.returncode == REFUSED and "usage: mvtgate-planet" in it.stderr and "Traceback" not in it.stderr
    assert not it.output.exists()


def test_output_that_cannot_be_made(tmp_path: pathlib.Path, planet: Planet) -> None:
    (tmp_path / "out").write_text("a file")
    it = run(tmp_path / "out", planet.path)
    assert (it.process.returncode, it.said) == (REFUSED, [f"mvtgate-planet: {tmp_path / 'out'}: File exists"])


@pytest.mark.parametrize("word", ["--junit", "--mend"])
def test_no_folder_for_what_is_written_at_the_end(tmp_path: pathlib.Path, word: str) -> None:
    """It is told before anything is judged."""
    path = write_database(tmp_path / "a.mbtiles", [Tile(0, 0, 0, VALID)])
    made = tmp_path / "nowhere/made.mbtiles"
    it = run(tmp_path / "out", path, word, made)
    assert (it.process.returncode, it.said) == (REFUSED, [f"mvtgate-planet: {made}: there is no folder {made.parent} that can be written to"])
    assert not (it.output / "journal.jsonl").exists()


@pytest.mark.parametrize("end", ["", "/"])
def test_folder_in_place_of_a_report(tmp_path: pathlib.Path, end: str) -> None:
    """It is told before anything is judged, too."""
    path = write_database(tmp_path / "a.mbtiles", [Tile(0, 0, 0, VALID)])
    if not end:
        (tmp_path / "made").mkdir()
    it = run(tmp_path / "out", path, "--junit", f"{tmp_path}/made{end}")
    assert (it.process.returncode, len(it.said)) == (REFUSED, 1) and f"{tmp_path}/made{end}: " in it.said[0]
    assert not (it.output / "journal.jsonl").exists()


def test_without_standard_error(planet: Planet, tmp_path: pathlib.Path) -> None:
    """Where it is closed, what it says goes nowhere, and the run goes on."""
    closed = ["sh", "-c", 'exec "$@" 2>&-', "sh", *PROGRAM]
    it = Run(tmp_path / "out", planet.path, "--workers", "1", program=closed)
    assert it.end() == FAULTY and it.stdout == ""
    expect_whole(planet, it)


def test_more_sources_than_files_that_may_be_open(tmp_path: pathlib.Path, scheduler: str) -> None:
    paths = [write_database(tmp_path / f"{number}.mbtiles", [Tile(0, 0, 0, VALID)]) for number in range(200)]
    (tmp_path / "names").write_text("".join(f"{it}\n" for it in paths))
    few = ["sh", "-c", 'ulimit -S -n 128; exec "$@"', "sh", *PROGRAM]
    it = Run(tmp_path / "out", "--list", tmp_path / "names", "--scheduler", scheduler, program=few)
    assert it.end() == VALID_STATUS, it.stderr

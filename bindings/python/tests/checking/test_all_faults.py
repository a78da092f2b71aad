"""mvtgate-check --all and --quick: a line, a test case and a result for each fault of a tile."""
from __future__ import annotations

import json
import pathlib
import xml.etree.ElementTree as ElementTree
from typing import Any, Dict, List

import pytest

from checking.runs import CROSSING, OVERLAP, PNG, POINT, json_lines, last_line, mbtiles, peak, run
from conftest import SAMPLES, TOP, YES
from mvtgate import Fault, Profile

# a MoveTo with a count of 0, a point, and two squares that overlap, in a layer of version 1 behind two empty ones of its name
NO_POINT = b"\x12\x07\x18\x01\x22\x03\x01\x32\x22"
GOOD_POINT = b"\x12\x07\x18\x01\x22\x03\x09\x32\x22"
SQUARES = b"\x12\x1a\x18\x03\x22\x16\x09\x00\x00\x1a\x14\x00\x00\x14\x13\x00\x0f\x09\x0a\x09\x1a\x14\x00\x00\x14\x13\x00\x0f"
NAMED = b"\x0a\x01a"
FEATURES = NO_POINT + GOOD_POINT + SQUARES + NO_POINT
TILE = 2 * (b"\x1a\x05\x78\x02" + NAMED) + b"\x1a" + bytes([5 + len(FEATURES)]) + b"\x78\x01" + NAMED + FEATURES
OF_LAYERS = ['{"code":202,"first":0,"second":1}', '{"code":201,"layer":2}']
OF_FEATURES = ['{"code":402,"feature":0,"index":0,"layer":2}', '{"code":402,"feature":3,"index":0,"layer":2}']
BY_POLYGON = OF_LAYERS + OF_FEATURES


@pytest.fixture
def made(tmp_path: pathlib.Path) -> pathlib.Path:
    path = tmp_path / "made.mvt"
    path.write_bytes(TILE)
    return path


def texts(lines: List[Dict[str, Any]]) -> List[str]:
    return [json.dumps(it["fault"], separators=(",", ":"), sort_keys=True) for it in lines]


def test_each_fault_has_a_line(made: pathlib.Path) -> None:
    said = run("--all", "--json", "--confirm", "--explain", POINT, made, CROSSING)
    assert said.returncode == 1
    lines = json_lines(said.stdout)
    assert [it["file"] for it in lines] == [*4 * [str(made)], str(CROSSING)]
    assert texts(lines[:4]) == BY_POLYGON
    for it in lines:
        assert it["confirmed"] is True and it["explanation"].splitlines()[1] == it["sentence"]
    words = run("--all", made).stdout.splitlines()
    assert [it.split(": ")[:2] for it in words] == [[str(made), code] for code in ("202", "201", "402", "402")]


def test_without_the_option_there_is_the_first(made: pathlib.Path) -> None:
    said = run("--json", made)
    assert texts(json_lines(said.stdout)) == BY_POLYGON[:1] and last_line(said) == "1 tile: 0 valid, 1 with a fault"


def test_summary_tells_tiles_from_faults(made: pathlib.Path) -> None:
    assert run("--all", made, POINT, CROSSING, "nowhere").stderr.splitlines()[1:] == [
        "  2 times 402: Command count not allowed",
        "  1 times 201: Layer version other than 2",
        "  1 times 202: Two layers of one name",
        "  1 times 504: Edges that meet",
        "4 tiles: 1 valid, 2 with a fault, 5 faults in all, 1 not judged",
    ]
    assert run("--all", POINT).stderr == "1 tile: 1 valid, 0 with a fault, 0 faults in all\n"


@pytest.mark.parametrize("options", [[], ["--quick"]], ids=" ".join)
@pytest.mark.parametrize("profile", Profile)
def test_folder_of_samples(profile: Profile, options: List[str]) -> None:
    """Each sample with a fault begins with it, and all that is told of it is confirmed."""
    words = ["--all", "--json", "--confirm", "--allow-empty", "--profile", profile.name.lower(), *options]
    said = run(*words, TOP / "tiles")
    told: Dict[str, List[Dict[str, Any]]] = {}
    for it in json_lines(said.stdout):
        told.setdefault(it["file"], []).append(it)
        assert it["confirmed"] is True
    samples = {str(it.path): it.lines[profile] for it in SAMPLES if it.path.parent == TOP / "tiles"}
    faulty = {file: lines for file, lines in samples.items() if lines != [YES]}
    assert set(told) == set(faulty)
    for file, lines in faulty.items():
        # (which by `feature` may be another one of the same feature)
        assert (options and profile is Profile.FEATURE) or texts(told[file])[0] in lines
    assert f" {len(faulty)} with a fault, {len(said.stdout.splitlines())} faults in all" in last_line(said)


def test_quick_by_feature(made: pathlib.Path) -> None:
    """Where edges meet a quick search names any meeting. The same tiles are valid."""
    codes = {(): ["507"], ("--quick",): ["504"], ("--all",): ["507"], ("--all", "--quick"): ["504"]}
    for options, wanted in codes.items():
        said = run("--profile", "feature", "--confirm", *options, OVERLAP, POINT)
        assert said.returncode == 1 and [it.split(": ")[1] for it in said.stdout.splitlines()] == wanted
        assert said.stdout.endswith(" (confirmed)\n")
    of_squares = [Fault.from_text(it).code for it in texts(json_lines(run("--all", "--quick", "--json", "--profile", "feature", made).stdout))]
    assert of_squares == [202, 201, 402, 504, 402]
    assert run("--quick", OVERLAP, POINT).returncode == 0


def test_a_picture_has_one_fault(tmp_path: pathlib.Path) -> None:
    (tmp_path / "it.mvt").write_bytes(PNG)
    [it] = json_lines(run("--all", "--json", tmp_path).stdout)
    assert it["format"] == "png" and 101 <= it["fault"]["code"] <= 111


def test_valid_tiles_have_a_line_each(made: pathlib.Path) -> None:
    said = run("--all", "--valid", "--json", POINT, made, POINT)
    assert [it.get("valid") for it in json_lines(said.stdout)] == [True, None, None, None, None, True]


@pytest.fixture
def archive(tmp_path: pathlib.Path) -> pathlib.Path:
    """Tiles with four faults, one, and none, many of each."""
    tiles = (TILE, CROSSING.read_bytes(), POINT.read_bytes())
    return mbtiles(tmp_path / "it.mbtiles", {(7, at // 100, at % 100): tiles[at % 3] for at in range(300)})


def test_the_same_with_several_processes(archive: pathlib.Path) -> None:
    words = ["--all", "--json", "--valid", "--confirm", archive]
    one, several = run(*words), run("--jobs", "3", *words)
    assert (one.stdout, one.stderr) == (several.stdout, several.stderr)
    assert last_line(one) == "300 tiles: 100 valid, 200 with a fault, 500 faults in all"


@pytest.mark.parametrize("jobs", [1, 2])
def test_junit_has_a_case_for_each_fault(made: pathlib.Path, jobs: int) -> None:
    report = made.with_name("it.xml")
    run("--all", "--jobs", jobs, "--junit", report, made, POINT, CROSSING, "nowhere")
    [suite] = ElementTree.parse(report).getroot()
    assert {key: suite.get(key) for key in ("tests", "failures", "errors")} == {"tests": "7", "failures": "5", "errors": "1"}
    names = [str(it.get("name")) for it in suite]
    assert names[:4] == [f"{made}: {Fault.from_text(it).place}" for it in BY_POLYGON] and len(set(names)) == 7
    assert names[4] == str(POINT) and names[6] == "nowhere"
    assert [it[0].get("type") if len(it) else None for it in suite] == ["202", "201", "402", "402", None, "504", "not judged"]
    assert {it.get("file") for it in suite[:4]} == {str(made)}


def test_sarif_has_a_result_for_each_fault(made: pathlib.Path) -> None:
    report = made.with_name("it.sarif")
    run("--all", "--sarif", report, made, POINT, CROSSING)
    [it] = json.loads(report.read_text())["runs"]
    faults = [result["properties"]["fault"] for result in it["results"]]
    assert [json.dumps(fault, separators=(",", ":"), sort_keys=True) for fault in faults[:4]] == BY_POLYGON
    assert [fault["code"] for fault in faults[4:]] == [504]
    places = [result["locations"][0]["logicalLocations"][0]["fullyQualifiedName"] for result in it["results"]]
    assert places[:4] == [Fault.from_text(text).place for text in BY_POLYGON]


@pytest.mark.parametrize("jobs", [1, 2])
def test_memory_of_many_faults(jobs: int, tmp_path: pathlib.Path) -> None:
    """Very many faults of one tile are written one after another. (As objects they would take a kilobyte each.)"""
    count = 30_000
    payload = b"\x78\x02" + NAMED + count * NO_POINT
    length = len(payload)
    path = tmp_path / "0/0/0.mvt"
    path.parent.mkdir(parents=True)
    path.write_bytes(b"\x1a" + bytes([length & 127 | 128, length >> 7 & 127 | 128, length >> 14]) + payload)
    words = ["--json", "--jobs", jobs, "--sarif", tmp_path / "it.sarif", "--geojson", tmp_path / "it.geojson", path]
    few = peak(*words)
    assert peak("--all", *words) < few + 12_000
    with open(tmp_path / "it.sarif") as report:
        # (a head, a result on each line, and a tail)
        assert sum(1 for _ in report) == count + 2
    with open(tmp_path / "it.geojson") as report:
        assert sum(1 for _ in report) == count + 2

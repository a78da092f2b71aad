"""The reports of mvtgate-check: JUnit's XML, as junitparser reads it, and SARIF 2.1.0, by what its specification requires."""
from __future__ import annotations

import gzip
import json
import os
import pathlib
import subprocess
import urllib.parse
import xml.etree.ElementTree as ElementTree
from typing import Any, Dict, List

import pytest

import mvtgate
from checking.runs import CROSSING, EMPTY, PNG, POINT, command, environment, mbtiles, run
from conftest import TOP, VERSION
from mvtgate.checking.sarif import _uri as uri_of

WORDS = json.loads((TOP / "bindings/faults.json").read_text())


@pytest.fixture
def folder(tmp_path: pathlib.Path) -> pathlib.Path:
    """A valid tile, one with a fault, a picture, an empty one, and an archive with one of each verdict."""
    where = tmp_path / "tiles"
    where.mkdir()
    for name, content in (("a <&\"'>.mvt", CROSSING.read_bytes()), ("b.mvt", POINT.read_bytes()), ("c.mvt", PNG), ("d.mvt", b"")):
        (where / name).write_bytes(content)
    mbtiles(where / "e.mbtiles", {(3, 1, 2): gzip.compress(CROSSING.read_bytes()), (3, 1, 3): POINT.read_bytes()})
    (where / os.fsdecode(b"f\xff\x01\n.mvt")).write_bytes(CROSSING.read_bytes())
    return where


NAMES = ["a <&\"'>.mvt", "b.mvt", "c.mvt", "d.mvt", "e.mbtiles 3/1/3", "e.mbtiles 3/1/2", r"f\xff\x01\n.mvt"]


@pytest.mark.parametrize("jobs", [1, 2])
def test_junit(folder: pathlib.Path, tmp_path: pathlib.Path, jobs: int) -> None:
    """A case for each tile, with what is wrong."""
    said = run("--junit", tmp_path / "report.xml", "--jobs", jobs, "--quiet", folder)
    assert said.returncode == 3
    suites = ElementTree.parse(tmp_path / "report.xml").getroot()
    [suite] = suites
    assert {key: suite.get(key) for key in ("name", "tests", "failures", "errors")} == {"name": "mvtgate-check", "tests": "7", "failures": "4", "errors": "1"}
    assert [it.get("name") for it in suite] == [f"{folder}/{it}" for it in NAMES]
    assert [it[0].tag if len(it) else "" for it in suite] == ["failure", "", "failure", "error", "", "failure", "failure"]
    crossing, picture, empty = (suite[at][0] for at in (0, 2, 3))
    fault = mvtgate.check(CROSSING.read_bytes())
    assert fault is not None
    assert (crossing.get("type"), crossing.get("message"), crossing.text) == ("504", str(fault), mvtgate.explain(fault))
    assert WORDS["formats"]["png"]["sentence"] in str(picture.get("message")) and WORDS["formats"]["png"]["remedy"] in str(picture.text)
    assert (empty.get("type"), empty.get("message")) == ("not judged", EMPTY)


def test_addresses_in_sarif() -> None:
    """An address is a reference as it is, but for what no reference may have."""
    assert uri_of("https://example.org/planet.pmtiles?v=2") == "https://example.org/planet.pmtiles?v=2"
    assert uri_of("https://example.org/zürich town.pmtiles") == "https://example.org/z%C3%BCrich%20town.pmtiles"


def test_junit_as_another_program_reads_it(folder: pathlib.Path, tmp_path: pathlib.Path) -> None:
    parser: Any = pytest.importorskip("junitparser")
    run("--junit", tmp_path / "report.xml", folder)
    [suite] = parser.JUnitXml.fromfile(str(tmp_path / "report.xml"))
    said = (suite.tests, suite.failures, suite.errors)
    results = [type(it).__name__ for case in suite for it in case.result]
    suite.update_statistics()
    assert said == (suite.tests, suite.failures, suite.errors) == (7, 4, 1)
    assert results == ["Failure", "Failure", "Error", "Failure", "Failure"]


def sarif_of(path: pathlib.Path) -> Dict[str, Any]:
    """The report's one run, with what the specification asks of each report."""
    report = json.loads(path.read_text("utf-8"))
    assert report["version"] == "2.1.0" and report["$schema"].endswith("sarif-2.1.0.json")
    [it] = report["runs"]
    driver = it["tool"]["driver"]
    assert (driver["name"], driver["version"]) == ("mvtgate-check", VERSION)
    assert len({rule["id"] for rule in driver["rules"]}) == len(driver["rules"])
    for result in it["results"]:
        assert driver["rules"][result["ruleIndex"]]["id"] == result["ruleId"]
        assert result["level"] == "error" and result["message"]["text"]
        [location] = result["locations"]
        uri = location["physicalLocation"]["artifactLocation"]["uri"]
        # (a reference as RFC 3986 has it)
        assert uri.isascii() and not set(uri) & set(" <>\"'\\&") and location["physicalLocation"]["region"]["startLine"] == 1
    run_of_report: Dict[str, Any] = it
    return run_of_report


def places(report: Dict[str, Any]) -> List[Any]:
    return [it["locations"][0].get("logicalLocations", [{}])[0].get("fullyQualifiedName") for it in report["results"]]


@pytest.mark.parametrize("jobs", [1, 2])
def test_sarif(folder: pathlib.Path, tmp_path: pathlib.Path, jobs: int) -> None:
    """A result for each tile that isn't valid, at its file."""
    said = run("--sarif", tmp_path / "report.sarif", "--jobs", jobs, folder)
    assert said.returncode == 3
    it = sarif_of(tmp_path / "report.sarif")
    results = it["results"]
    codes = [result["ruleId"] for result in results]
    assert [codes[0], *codes[2:]] == ["504", "not-judged", "504", "504"] and 101 <= int(codes[1]) <= 111
    files = [urllib.parse.unquote_to_bytes(result["locations"][0]["physicalLocation"]["artifactLocation"]["uri"]) for result in results]
    wanted = ["a <&\"'>.mvt", "c.mvt", "d.mvt", "e.mbtiles", os.fsdecode(b"f\xff\x01\n.mvt")]
    assert files == [b"file://" + os.fsencode(folder / name) for name in wanted]
    fault = mvtgate.check(CROSSING.read_bytes())
    assert fault is not None
    assert places(it) == [fault.place, places(it)[1], None, f"3/1/2, {fault.place}", fault.place]
    assert results[0]["message"]["text"] == fault.sentence and results[0]["properties"]["fault"] == fault.members
    assert results[2]["message"]["text"] == EMPTY
    assert it["invocations"] == [{"executionSuccessful": False}]
    assert {rule["id"]: rule["shortDescription"]["text"] for rule in it["tool"]["driver"]["rules"]}.items() >= {
        (code, words["title"]) for code, words in WORDS["faults"].items()
    }


def test_sarif_of_relative_paths(folder: pathlib.Path, tmp_path: pathlib.Path) -> None:
    """They stay relative, as code hosts want them, and a colon is no scheme."""
    (folder / "g:h.mvt").write_bytes(CROSSING.read_bytes())
    said = run("--sarif", tmp_path / "report.sarif", "./g:h.mvt", "c.mvt", "../tiles/c.mvt", cwd=folder)
    assert said.returncode == 1
    it = sarif_of(tmp_path / "report.sarif")
    uris = [result["locations"][0]["physicalLocation"]["artifactLocation"]["uri"] for result in it["results"]]
    assert uris == ["g%3Ah.mvt", "c.mvt", "../tiles/c.mvt"] and it["invocations"] == [{"executionSuccessful": True}]


def test_reports_of_valid_tiles(tmp_path: pathlib.Path) -> None:
    said = run("--junit", tmp_path / "it.xml", "--sarif", tmp_path / "it.sarif", POINT)
    assert (said.returncode, said.stdout) == (0, "")
    [suite] = ElementTree.parse(tmp_path / "it.xml").getroot()
    assert [it.attrib["name"] for it in suite] == [str(POINT)] and len(suite[0]) == 0 and suite.get("failures") == suite.get("errors") == "0"
    assert sarif_of(tmp_path / "it.sarif")["results"] == []


def test_report_that_cannot_be_written(tmp_path: pathlib.Path) -> None:
    for option in ("--junit", "--sarif"):
        said = run(option, tmp_path / "no/report", CROSSING)
        assert (said.returncode, said.stdout, said.stderr) == (3, "", f"mvtgate-check: {tmp_path}/no/report: No such file or directory\n")
        said = run(option, "/dev/full", CROSSING)
        assert said.returncode == 3 and said.stderr == "mvtgate-check: /dev/full: No space left on device\n"


@pytest.mark.parametrize("option", ["--junit", "--sarif", "--geojson"])
def test_report_in_the_place_of_tiles(tmp_path: pathlib.Path, option: str) -> None:
    """Where the report's name was left out, the next file isn't written over; nor one that is judged, also by another name, nor another report."""
    names = ["a.mbtiles", "a.pmtiles", "a.mvt", "a.pbf.gz", "tile"]
    for name in names:
        (tmp_path / name).write_bytes(CROSSING.read_bytes())
    (tmp_path / "link").symlink_to("tile")
    tile = tmp_path / "tile"
    for words in [*([option, tmp_path / name, tile] for name in names), [option, tmp_path / "link", tile], [option, tile, tmp_path / "link"]]:
        said = run(*words)
        assert said.returncode == 2 and f"{option} takes the name of a report" in said.stderr, said.stderr
    other = "--sarif" if option == "--junit" else "--junit"
    assert run(option, tmp_path / "report", other, tmp_path / "report", tile).returncode == 2
    assert all((tmp_path / name).read_bytes() == CROSSING.read_bytes() for name in names)
    assert run(option, os.devnull, other, os.devnull, tile).returncode == 1


def test_no_reader_finds_half_a_report(folder: pathlib.Path, tmp_path: pathlib.Path) -> None:
    """Where a run doesn't end its reports are empty, and the earlier ones are gone."""
    reports = [tmp_path / "it.xml", tmp_path / "it.sarif"]
    for it in reports:
        it.write_text("an earlier one")
    words = command("--explain", "--junit", reports[0], "--sarif", reports[1], *(100 * [folder]))
    subprocess.run(["bash", "-c", '"$@" | head -n 1', "bash", *words], env=environment(), capture_output=True)
    assert [it.read_text() for it in reports] == ["", ""]

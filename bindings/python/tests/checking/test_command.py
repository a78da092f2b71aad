"""mvtgate-check, as `python3 -m mvtgate check`: words, lines, and exit statuses."""
from __future__ import annotations

import contextlib
import gzip
import json
import os
import pathlib
import pty
import subprocess
import sys
from typing import Any, List, Tuple

import pytest

from checking.runs import CROSSING, OVERLAP, PNG, POINT, command, environment, json_lines, last_line, run
from conftest import SAMPLES, TOP, VERSION, YES
from mvtgate import Profile

FORMATS = json.loads((TOP / "bindings/faults.json").read_text())["formats"]


def test_valid_file() -> None:
    said = run(POINT)
    assert (said.returncode, said.stdout, said.stderr) == (0, "", "1 tile: 1 valid, 0 with a fault\n")


def test_faulty_files() -> None:
    said = run(POINT, CROSSING, "--confirm")
    assert said.returncode == 1
    assert said.stdout.startswith(f"{CROSSING}: 504: In feature 0 of layer 0, edge 0 of ring 0 ") and said.stdout.endswith(" (confirmed)\n")
    assert said.stderr == "2 tiles: 1 valid, 1 with a fault\n"


def test_summary_counts_codes() -> None:
    said = run(CROSSING, TOP / "tiles/version_one.mvt", CROSSING, POINT)
    assert said.stderr.splitlines() == ["  2 with 504: Edges that meet", "  1 with 201: Layer version other than 2", "4 tiles: 1 valid, 3 with a fault"]


def test_words_may_stand_in_any_order() -> None:
    assert run(POINT, "--json", CROSSING).returncode == run("--json", POINT, CROSSING).returncode == 1
    said = run("--", "-no-such-file")
    assert said.returncode == 3 and said.stderr.startswith("mvtgate-check: -no-such-file: No such file or directory\n")


def test_explain() -> None:
    lines = run("--explain", CROSSING).stdout.splitlines()
    assert len(lines) == 3 and lines[1].startswith("    Cause: ") and lines[2].startswith("    What to do: ")


def test_profiles() -> None:
    assert run(OVERLAP).returncode == 0
    assert run("--profile", "polygon", OVERLAP).returncode == 0
    said = run("--profile", "feature", "--confirm", OVERLAP)
    assert said.returncode == 1 and ": 507: " in said.stdout


@pytest.mark.parametrize("profile", Profile)
def test_folder_of_samples(profile: Profile) -> None:
    """All sample tiles in one process: a JSON line for each that has a fault, and no other."""
    said = run("--json", "--confirm", "--explain", "--allow-empty", "--profile", profile.name.lower(), TOP / "tiles")
    told = {it["file"]: it for it in json_lines(said.stdout)}
    samples = {str(it.path): it.lines[profile] for it in SAMPLES if it.path.parent == TOP / "tiles"}
    faulty = {file: lines for file, lines in samples.items() if lines != [YES]}
    assert set(told) == set(faulty)
    for file, lines in faulty.items():
        assert json.dumps(told[file]["fault"], separators=(",", ":"), sort_keys=True) in lines
        assert told[file]["confirmed"] is True
        assert told[file]["explanation"].splitlines()[1] == told[file]["sentence"]
    # (there are tiles that have lines for `fields` alone, which aren't listed here)
    assert said.returncode == 1
    assert said.stderr.endswith(f" valid, {len(faulty)} with a fault\n")


def test_lines_of_valid_tiles() -> None:
    said = run("--valid", POINT, CROSSING, POINT)
    assert [it.split(": ")[:2] for it in said.stdout.splitlines()] == [[str(POINT), "valid"], [str(CROSSING), "504"], [str(POINT), "valid"]]
    said = run("--valid", "--json", POINT, CROSSING)
    assert [set(it) for it in json_lines(said.stdout)] == [{"file", "valid"}, {"file", "fault", "sentence"}]
    assert json_lines(said.stdout)[0] == {"file": str(POINT), "valid": True}


def test_quiet() -> None:
    calls: List[Tuple[List[Any], int]] = [([POINT], 0), ([CROSSING, POINT], 1), (["--valid", "--explain", CROSSING], 1)]
    for words, status in calls:
        said = run("--quiet", *words)
        assert (said.returncode, said.stdout, said.stderr) == (status, "", "")
    said = run("--quiet", CROSSING, "nowhere.mvt")
    assert (said.returncode, said.stdout, said.stderr) == (3, "", "mvtgate-check: nowhere.mvt: No such file or directory\n")


def test_formats_are_named(tmp_path: pathlib.Path) -> None:
    """What is no tile at all is named beside the fault, which stays."""
    stored = {"png": PNG, "json": b'{"type": "FeatureCollection"}', "pmtiles": b"PMTiles\x03", "gzip": gzip.compress(gzip.compress(POINT.read_bytes()))}
    for name, content in stored.items():
        (tmp_path / f"{name}.mvt").write_bytes(content)
    said = run("--json", "--explain", "--confirm", tmp_path)
    assert said.returncode == 1
    for it in json_lines(said.stdout):
        name = pathlib.Path(it["file"]).stem
        assert it["format"] == name and 101 <= it["fault"]["code"] <= 111 and it["confirmed"] is True
        assert it["explanation"].splitlines()[2:4] == [FORMATS[name]["sentence"], f"What to do: {FORMATS[name]['remedy']}"]
    assert len(json_lines(said.stdout)) == len(stored)
    lines = run("--explain", tmp_path / "png.mvt").stdout.splitlines()
    assert lines[0].startswith(f"{tmp_path}/png.mvt: ") and lines[0].endswith(f" {FORMATS['png']['sentence']}")
    assert lines[1:] == [f"    What to do: {FORMATS['png']['remedy']}"]


def test_a_database_on_standard_input_is_named() -> None:
    said = run("-", "--explain", input="SQLite format 3\0" + 100 * "\0")
    assert said.returncode == 1 and f"    What to do: {FORMATS['sqlite']['remedy']}" in said.stdout.splitlines()


@pytest.mark.parametrize("words", [[], ["--profile", "other", "x"], ["--no-such", "x"], ["--json", "--quiet", "x"], ["--jobs", "-1", "x"], ["--jobs", "many", "x"]])
def test_words_that_are_no_call(words: List[str]) -> None:
    said = run(*words)
    assert (said.returncode, said.stdout) == (2, "") and said.stderr.startswith("usage: mvtgate-check ")


def test_options_are_not_shortened() -> None:
    """So a later option's name never meant another one."""
    assert run("--allow", POINT).returncode == run("--al", POINT).returncode == run("--conf", POINT).returncode == 2


@pytest.mark.parametrize("words", [[], ["judge", "x"], ["--no-such"]])
def test_module_without_the_command(words: List[str]) -> None:
    said = subprocess.run([sys.executable, "-m", "mvtgate", *words], env=environment(), capture_output=True, text=True)
    assert (said.returncode, said.stdout) == (2, "") and said.stderr.startswith("usage: mvtgate ")


def test_without_standard_error(tmp_path: pathlib.Path) -> None:
    """Where it is closed, standard output has nothing but its own lines, and the status is the same."""
    for words, status in (([CROSSING], 1), ([CROSSING, tmp_path / "nowhere.mvt"], 3)):
        said = subprocess.run(["sh", "-c", 'exec "$@" 2>&-', "sh", *command(*words)], env=environment(), stdout=subprocess.PIPE, text=True)
        assert said.returncode == status and said.stdout == run(CROSSING).stdout


# a program with a mistake in it, in whichever process judges
MISTAKEN = "import sys; from mvtgate.checking import command, judging; judging._judged = lambda *_: 1 / 0; sys.exit(command.main(sys.argv[1:]))"


@pytest.mark.parametrize("jobs", ["1", "2"])
def test_mistake_in_the_program(jobs: str) -> None:
    """Its status isn't that of a fault."""
    said = subprocess.run([sys.executable, "-c", MISTAKEN, "--jobs", jobs, POINT], env=environment(), capture_output=True, text=True)
    assert said.returncode == 3 and said.stderr.startswith("mvtgate-check: this is a mistake in the program: please report it\n")
    assert "ZeroDivisionError" in said.stderr


def test_help_and_version() -> None:
    assert run("--version").stdout == f"mvtgate-check {VERSION}\n"
    said = subprocess.run([sys.executable, "-m", "mvtgate", "--version"], env=environment(), capture_output=True, text=True)
    assert said.stdout == f"mvtgate {VERSION}\n"
    said = run("--help")
    assert said.returncode == 0 and "Exit status" in said.stdout


def read_terminal(end: int) -> str:
    """All that is written to a terminal, until its other end is closed."""
    shown = b""
    with contextlib.suppress(OSError):
        while part := os.read(end, 4096):
            shown += part
    os.close(end)
    return shown.decode()


@pytest.mark.parametrize("words", [[], ["--quiet"], ["--jobs", "2"]], ids=" ".join)
@pytest.mark.parametrize("has_tqdm", [True, False])
def test_progress_bar_on_a_terminal(has_tqdm: bool, words: List[str], tmp_path: pathlib.Path) -> None:
    if has_tqdm:
        pytest.importorskip("tqdm")
    else:
        (tmp_path / "tqdm.py").write_text("raise ImportError")
    env = environment(PYTHONPATH=":".join([str(tmp_path), *sys.path]))
    ours, theirs = pty.openpty()
    tiles = len(list((TOP / "tiles").glob("*.mvt")))
    with open(tmp_path / "out", "w+") as out, subprocess.Popen(command(TOP / "tiles", "--allow-empty", *words), env=env, stdout=out, stderr=theirs) as process:
        os.close(theirs)
        shown = read_terminal(ours)
        assert process.wait() == 1
        out.seek(0)
        assert "tiles/s]" not in out.read()
    is_quiet = "--quiet" in words
    # (the bar knows from its beginning how many there are)
    assert (f"0/{tiles} [" in shown and "tiles/s]" in shown) is (has_tqdm and not is_quiet)
    assert shown == "" if is_quiet else shown.rstrip().endswith("with a fault")


def test_last_line_is_the_sum() -> None:
    assert last_line(run(CROSSING, CROSSING, "nowhere")) == "3 tiles: 0 valid, 2 with a fault, 1 not judged"

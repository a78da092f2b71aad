"""Runs that find a journal: that of the same words goes on, whatever its last line is, and every other one is refused."""
from __future__ import annotations

import json
import pathlib
import re
import signal
import time
from typing import List

import pytest

from planet.conftest import Gate, Shimmed
from planet.helpers.planets import Planet
from planet.helpers.runs import REFUSED, UNFINISHED, Run, expect_whole, journal, records, run, wait_until

PARTITION = 16


class Lines:
    """The journal of an undisturbed run, to make others of."""

    def __init__(self, output: pathlib.Path) -> None:
        self.lines = (output / "journal.jsonl").read_bytes().splitlines(keepends=True)
        self._store = (output / "journal.bin").read_bytes()

    def write(self, output: pathlib.Path, count: int, more: bytes = b"") -> int:
        """A journal with the first lines, and some bytes more. The lines' length is returned."""
        output.mkdir()
        whole = b"".join(self.lines[:count])
        (output / "journal.jsonl").write_bytes(whole + more)
        (output / "journal.bin").write_bytes(self._store)
        return len(whole)


@pytest.fixture(scope="module")
def words(planet: Planet, scheduler: str) -> List[object]:
    return [planet.path, "--scheduler", scheduler, "--partition", PARTITION]


@pytest.fixture(scope="module")
def lines(planet: Planet, words: List[object], tmp_path_factory: pytest.TempPathFactory) -> Lines:
    it = run(tmp_path_factory.mktemp("lines") / "out", *words)
    expect_whole(planet, it)
    assert len(journal(it.output)) == len(planet.tiles) // PARTITION
    return Lines(it.output)


# (in the first line, after it, in the middle of one, and where the last lacks its line's end alone)
@pytest.mark.parametrize("count, cut", [(0, -1), (1, 5), (41, 100), (64, -1)])
def test_torn_line(planet: Planet, tmp_path: pathlib.Path, lines: Lines, words: List[object], count: int, cut: int) -> None:
    output = tmp_path / "out"
    length = lines.write(output, count, lines.lines[count][:cut])
    before = (output / "journal.jsonl").read_bytes()[:length]
    expect_whole(planet, run(output, *words))
    assert (output / "journal.jsonl").read_bytes().startswith(before)


def test_nothing_left(planet: Planet, tmp_path: pathlib.Path, lines: Lines, words: List[object]) -> None:
    """A run that ended before it had written its results needs no worker."""
    output = tmp_path / "out"
    length = lines.write(output, len(lines.lines))
    expect_whole(planet, run(output, planet.path, "--scheduler", "tcp://127.0.0.1:1", "--partition", PARTITION))
    assert (output / "journal.jsonl").stat().st_size == length


GARBAGE = {
    "word": b"garbage\n",
    "no UTF-8": b"\xff\n",
    "number": b"5\n",
    "list": b"[]\n",
    "empty": b"{}\n",
    "null": b"null\n",
    "no members": b'{"judged":{}}\n',
    "zeros": b"\0" * 64 + b"\n",
    "nested": b"[" * 100000 + b"\n",
}


@pytest.mark.parametrize("garbage", GARBAGE.values(), ids=GARBAGE)
@pytest.mark.parametrize("count", [0, 3])
def test_garbage(tmp_path: pathlib.Path, lines: Lines, words: List[object], garbage: bytes, count: int) -> None:
    output = tmp_path / "out"
    length = lines.write(output, count, garbage + b"".join(lines.lines[count:]))
    path = output / "journal.jsonl"
    before = path.read_bytes()
    it = run(output, *words)
    reasons = [f"{path}: at byte {length} is no line of a journal", f"{path} is no journal of this version"]
    assert (it.process.returncode, len(it.said)) == (REFUSED, 1)
    assert it.said[0].removeprefix("mvtgate-planet: ") in reasons
    assert path.read_bytes() == before


def test_two_runs_at_once(planet: Planet, tmp_path: pathlib.Path, gate: Gate, words: List[object]) -> None:
    first = Run(tmp_path / "out", planet.path, "--workers", 1, "--partition", PARTITION, env=gate.env)
    first.wait_for_lines(3)
    for second in (run(first.output, *words), run(first.output, *words, "--anew")):
        said = f"mvtgate-planet: {first.output / 'journal.jsonl'}: another run is writing to it"
        assert (second.process.returncode, second.said) == (REFUSED, [said])
    gate.open()
    first.end()
    expect_whole(planet, first)


OTHER = [(["--advice"], "advice"), (["--profile", "feature"], "profile"), (["--partition", "32"], "partition")]


@pytest.mark.parametrize("other, different", OTHER, ids=lambda it: str(it))
def test_other_words(tmp_path: pathlib.Path, lines: Lines, words: List[object], other: List[str], different: str) -> None:
    output = tmp_path / "out"
    lines.write(output, 10)
    it = run(output, *words, *other)
    assert (it.process.returncode, len(it.said)) == (REFUSED, 1)
    assert f"is of another run ({different} not the same)" in it.said[0] and "--anew" in it.said[0]


LEFT = ("advice.jsonl", "changes.jsonl", "faults.geojson", "faults.jsonl", "page.html", "report.html", "rows.csv", "since.jsonl", "summary.json")


def test_anew_removes_what_was_left(planet: Planet, tmp_path: pathlib.Path, gate: Gate, words: List[object]) -> None:
    """A new run that is interrupted leaves no results of another one, and nothing else is touched."""
    output = tmp_path / "out"
    expect_whole(planet, run(output, *words, "--advice"))
    (output / "faults.jsonl.part").write_text("of a run that was killed")
    (output / "notes.txt").write_text("the user's own")
    assert {"advice.jsonl", "faults.jsonl", "report.html"} <= {it.name for it in output.iterdir()}
    # (words that are refused remove nothing)
    assert run(output, *words).process.returncode == REFUSED and (output / "report.html").exists()
    it = Run(output, planet.path, "--workers", 1, "--partition", PARTITION, "--anew", env=gate.env)
    wait_until(lambda: not (output / "report.html").exists())
    it.wait_for_lines(3)
    it.process.send_signal(signal.SIGINT)
    assert it.end() == UNFINISHED
    assert sorted(path.name for path in output.iterdir()) == ["journal.bin", "journal.jsonl", "notes.txt"]
    expect_whole(planet, run(output, *words))


def test_results_without_a_journal(planet: Planet, tmp_path: pathlib.Path, gate: Gate) -> None:
    """They are another run's, too."""
    output = tmp_path / "out"
    output.mkdir()
    for name in LEFT:
        (output / name).write_text("another run's")
    it = Run(output, planet.path, "--workers", 1, "--partition", PARTITION, env=gate.env)
    it.wait_for_lines(1)
    it.process.send_signal(signal.SIGINT)
    assert it.end() == UNFINISHED
    assert sorted(path.name for path in output.iterdir()) == ["journal.bin", "journal.jsonl"]


def test_report_has_the_clock_of_all_calls(planet: Planet, tmp_path: pathlib.Path, lines: Lines, words: List[object]) -> None:
    """A journal whose last call had come to an hour and a half."""
    output = tmp_path / "out"
    lines.write(output, 40)
    path = output / "journal.jsonl"
    *before, last = path.read_bytes().splitlines(keepends=True)
    clock = json.loads(last)["clock"]
    path.write_bytes(b"".join(before) + last.replace(f'"clock":{clock}'.encode(), b'"clock":5400.0'))
    expect_whole(planet, run(output, *words))
    report = (output / "report.html").read_text()
    assert re.findall(r'data-measure="seconds"><dt>Clock time</dt><dd>([^<]*)<', report) == ["1 h 30 min"]
    [rate] = re.findall(r'data-figure="rate"><dt>Tiles a second</dt><dd><span class="figure">([^<]*)<', report)
    assert rate == "0.2"  # (1,024 tiles in 5,400 seconds)


def test_clock_of_a_call(planet: Planet, tmp_path: pathlib.Path, shimmed: Shimmed) -> None:
    """The journal's seconds are no fewer than the tiles take, and no more than a watch has gone on."""
    began = time.monotonic()
    it = Run(tmp_path / "out", planet.path, "--workers", 1, "--partition", PARTITION, env=shimmed(2000))
    it.end()
    took = time.monotonic() - began
    clocks = [line["clock"] for line in records(it.output / "journal.jsonl")[1:]]
    assert clocks == sorted(clocks) and clocks[-1] <= took
    # (of 40 partitions each tile takes two thousandths of a second)
    assert clocks[44] - clocks[4] >= 40 * PARTITION * 0.002


def test_anew(planet: Planet, tmp_path: pathlib.Path, lines: Lines, words: List[object]) -> None:
    """What an earlier run found is forgotten, also a journal that can't be read."""
    output = tmp_path / "out"
    lines.write(output, 10, b"garbage\n")
    expect_whole(planet, run(output, *words, "--anew", "--partition", 256))
    assert len(journal(output)) == len(planet.tiles) // 256

"""Several processes: the same lines in the same order, processes that are killed, and memory that stays bounded."""
from __future__ import annotations

import os
import pathlib
import signal
import subprocess
from typing import Iterator, List

import pytest

from checking.runs import CROSSING, LONG, POINT, Run, children, command, environment, mbtiles, peak, run, wait_for
from conftest import TOP

FAULT, VALID = CROSSING.read_bytes(), POINT.read_bytes()


@pytest.fixture(scope="module")
def many(tmp_path_factory: pytest.TempPathFactory) -> List[pathlib.Path]:
    """Folders and an archive with 1,300 tiles of all kinds, some of which can't be read."""
    top = tmp_path_factory.mktemp("many")
    for at in range(700):
        folder = top / f"{at % 7}"
        folder.mkdir(exist_ok=True)
        (folder / f"{at}.mvt").write_bytes(FAULT if at % 5 == 0 else b"" if at % 11 == 0 else VALID)
    (top / "3/gone.mvt").symlink_to("nowhere")
    archive = mbtiles(top / "it.mbtiles", {(10, at // 30, at % 30): FAULT if at % 7 == 0 else VALID for at in range(600)})
    return [top, TOP / "tiles", archive, top / "missing.mvt"]


def test_the_same_with_any_number(many: List[pathlib.Path]) -> None:
    for words in (["--json", "--valid", "--confirm"], ["--explain"]):
        one = run(*words, *many)
        assert one.returncode == 3 and len(one.stdout.splitlines()) > 300
        for jobs in (2, 5, 0):
            assert (it := run(*words, "--jobs", jobs, *many)).returncode == 3
            assert (it.stdout, it.stderr) == (one.stdout, one.stderr)


def test_as_many_as_processors(tmp_path: pathlib.Path, slow_library: str) -> None:
    """0 stands for the processors that this process may run on."""
    env = environment(MVTGATE_LIBRARY=slow_library, SLOW_NOTE=tmp_path / "note")
    folder = tmp_path / "tiles"
    folder.mkdir()
    for at in range(400):
        (folder / f"{at}.mvt").write_bytes(VALID)
    allowed = sorted(os.sched_getaffinity(0))[:2]
    words = ["taskset", "--cpu-list", ",".join(map(str, allowed)), *command("--jobs", "0", folder)]
    with subprocess.Popen(words, env=env, stderr=subprocess.PIPE) as process:
        wait_for(lambda: len(children(process.pid)) == len(allowed))
        process.kill()


def ended(process: "subprocess.Popen[str]") -> Run:
    out, error = process.communicate(timeout=LONG)
    return Run(process.args, process.returncode, out, error)


def interruptible(*words: object) -> List[str]:
    """The command as an interactive shell begins it: what runs in a script's background has ctrl-C ignored."""
    return ["env", "--default-signal=INT", *command(*words)]


@pytest.fixture
def begun(tmp_path: pathlib.Path, slow_library: str) -> Iterator["subprocess.Popen[str]"]:
    """A run by two processes, each of which is in the middle of a tile that takes very long."""
    folder = tmp_path / "tiles"
    folder.mkdir()
    for at in range(400):
        (folder / f"{at}.mvt").write_bytes(VALID)
    words = interruptible("--jobs", "2", "--junit", tmp_path / "it.xml", folder)
    env = environment(MVTGATE_LIBRARY=slow_library, SLOW_NOTE=tmp_path / "note")
    process = subprocess.Popen(words, env=env, stdout=subprocess.PIPE, stderr=subprocess.PIPE, text=True, start_new_session=True)
    wait_for(lambda: len(list(tmp_path.glob("note.*"))) == 2)
    yield process
    process.kill()
    process.communicate()


def test_killed_process(begun: "subprocess.Popen[str]", tmp_path: pathlib.Path) -> None:
    """It is told; what it had in hand isn't taken for judged."""
    workers = children(begun.pid)
    os.kill(workers[0], signal.SIGKILL)
    said = ended(begun)
    assert said.returncode == 3 and said.stdout == ""
    assert said.stderr == "mvtgate-check: a process that judged tiles was ended from outside; is there too little memory?\n"
    assert (tmp_path / "it.xml").read_text() == ""
    assert not any(pathlib.Path(f"/proc/{it}").exists() for it in workers)


@pytest.mark.parametrize("number", [signal.SIGINT, signal.SIGTERM, signal.SIGKILL])
@pytest.mark.parametrize("whole_group", [True, False])
def test_interrupt(begun: "subprocess.Popen[str]", number: signal.Signals, whole_group: bool, tmp_path: pathlib.Path) -> None:
    """It ends at once, in silence, even in the middle of a tile, and its processes too: by ctrl-C, which all get, or alone."""
    workers = children(begun.pid)
    if whole_group:
        os.killpg(begun.pid, number)
    else:
        begun.send_signal(number)
    assert begun.wait(LONG) == -number
    wait_for(lambda: not any(pathlib.Path(f"/proc/{it}").exists() for it in workers))
    assert begun.communicate() == ("", "") and (tmp_path / "it.xml").read_text() == ""


def test_interrupt_of_one_process(tmp_path: pathlib.Path, slow_library: str) -> None:
    env = environment(MVTGATE_LIBRARY=slow_library, SLOW_NOTE=tmp_path / "note")
    process = subprocess.Popen(interruptible(CROSSING), env=env, stdout=subprocess.PIPE, stderr=subprocess.PIPE, text=True)
    try:
        wait_for((tmp_path / f"note.{process.pid}").exists)
        process.send_signal(signal.SIGINT)
        assert process.wait(LONG) == -signal.SIGINT
        assert process.communicate() == ("", "")
    finally:
        process.kill()


@pytest.mark.parametrize("jobs", ["1", "2"])
def test_reader_that_goes_away(jobs: str, many: List[pathlib.Path]) -> None:
    words = ["bash", "-c", '"$@" | head -n 1; exit "${PIPESTATUS[0]}"', "bash", *command("--explain", "--jobs", jobs, *(many * 10))]
    said = subprocess.run(words, env=environment(), capture_output=True, text=True)
    assert said.returncode == 141 and said.stdout.count("\n") == 1
    assert "Traceback" not in said.stderr and "BrokenPipe" not in said.stderr and "Exception ignored" not in said.stderr
    words[2] = '"$@" 2>&1 >/dev/null | head -n 1; exit "${PIPESTATUS[0]}"'
    said = subprocess.run([*words, *200 * ["nowhere"]], env=environment(), capture_output=True, text=True)
    assert said.returncode == 141 and said.stdout.count("\n") == 1 and said.stderr == ""


def test_output_that_cannot_be_written() -> None:
    for option in ("--explain", "--json"):
        with open("/dev/full", "w") as full:
            said = subprocess.run(command(CROSSING, option), env=environment(), stdout=full, stderr=subprocess.PIPE, text=True)
        assert (said.returncode, said.stderr) == (3, "mvtgate-check: standard output: No space left on device\n")


@pytest.mark.parametrize("jobs", [1, 2])
def test_memory_of_many_tiles(jobs: int, tmp_path: pathlib.Path) -> None:
    """Many take hardly more than a few, with lines and reports too. (Kept answers would take a kilobyte each.)"""
    words = ["--json", "--valid", "--jobs", jobs, "--junit", tmp_path / "it.xml", "--sarif", tmp_path / "it.sarif"]
    few = mbtiles(tmp_path / "few.mbtiles", {(12, 0, row): FAULT for row in range(2000)})
    many = mbtiles(tmp_path / "many.mbtiles", {(12, at // 4000, at % 4000): FAULT for at in range(20_000)})
    assert peak(*words, many) < peak(*words, few) + 8_000

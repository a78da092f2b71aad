"""Which objects are taken for a tile, threads and interpreters, memory that is refused, and where the library is."""
from __future__ import annotations

import array
import ctypes
import mmap
import pathlib
import subprocess
import sys
import threading
import time
from typing import Any, Callable, Iterator, List

import pytest

import mvtgate
from calls import HERE
from conftest import SAMPLES, TOP, VERSION, YES, check_line, saw
from mvtgate import Profile, _library

FAULTY = (TOP / "tiles/crossing_edges.mvt").read_bytes()
LINE = (TOP / "tiles/expected/crossing_edges.check").read_text().strip()


def test_kinds_of_bytes(tmp_path: pathlib.Path) -> None:
    path = tmp_path / "tile"
    path.write_bytes(FAULTY)

    class Subclass(bytes):
        pass

    kinds: List[Any] = [bytearray(FAULTY), memoryview(FAULTY), memoryview(bytearray(FAULTY)), Subclass(FAULTY), array.array("B", FAULTY)]
    kinds += [memoryview(b"__" + FAULTY + b"__")[2:-2], (ctypes.c_char * len(FAULTY)).from_buffer_copy(FAULTY)]
    for it in kinds:
        fault = mvtgate.check(it)
        assert fault is not None and fault.text == LINE
        assert mvtgate.confirm(it, fault)
        assert mvtgate.faults(it) == [fault]
        assert mvtgate.dump(it) == mvtgate.dump(FAULTY)
        assert mvtgate.advise(it) == []
    with open(path, "r+b") as file:
        for access in (mmap.ACCESS_READ, mmap.ACCESS_WRITE, mmap.ACCESS_COPY):
            with mmap.mmap(file.fileno(), 0, access=access) as mapped:
                assert check_line(mapped) == LINE
                assert check_line(memoryview(mapped)) == LINE


@pytest.mark.parametrize("empty", [b"", bytearray(), memoryview(b""), array.array("B"), memoryview(FAULTY)[:0]], ids=lambda it: type(it).__name__)
def test_no_bytes(empty: Any) -> None:
    assert mvtgate.check(empty) is None
    assert mvtgate.check(empty, not_empty=False) is None
    for profile in Profile:
        with pytest.raises(mvtgate.EmptyTile, match="no bytes"):
            mvtgate.check(empty, profile, not_empty=True)
    assert mvtgate.faults(empty) == []
    assert mvtgate.dump(empty) == {"layers": []}


def test_not_empty_changes_no_other_answer() -> None:
    assert issubclass(mvtgate.EmptyTile, ValueError)
    for sample in SAMPLES:
        if sample.tile:
            assert mvtgate.check(sample.tile, not_empty=True) == mvtgate.check(sample.tile)
    with pytest.raises(TypeError, match="str"):
        mvtgate.check("", not_empty=True)  # type: ignore[arg-type]


def test_bytes_are_released() -> None:
    tile = bytearray(FAULTY)
    before = sys.getrefcount(tile)
    for _ in range(100):
        mvtgate.check(tile)
    assert sys.getrefcount(tile) == before
    tile.append(0)


def test_other_objects() -> None:
    wrong: List[Any] = ["text", None, 5, [1, 2], 1.5, object()]
    calls: List[Callable[[Any], object]] = [mvtgate.check, mvtgate.faults, mvtgate.dump, mvtgate.advise]
    for it in wrong:
        for call in calls:
            with pytest.raises(TypeError, match="a tile is bytes"):
                call(it)
    with pytest.raises(TypeError, match="aren't contiguous"):
        mvtgate.check(memoryview(FAULTY)[::2])
    released = memoryview(FAULTY)
    released.release()
    with pytest.raises(ValueError):
        mvtgate.check(released)


def test_other_arguments() -> None:
    wrong: List[Any] = [0, 1, 2, "polygon", None]
    for profile in wrong:
        with pytest.raises(TypeError, match="profile"):
            mvtgate.check(b"", profile)
        with pytest.raises(TypeError, match="profile"):
            mvtgate.faults(b"", profile)
        with pytest.raises(TypeError, match="profile"):
            mvtgate.confirm(b"", "{}", profile)
    no_faults: List[Any] = [None, b"{}", {"code": 201, "layer": 0}]
    for fault in no_faults:
        with pytest.raises(TypeError, match="fault"):
            mvtgate.confirm(b"", fault)


@pytest.mark.parametrize(
    "text, reason",
    [
        ("", "JSON"),
        ("[1", "JSON"),
        ("\udcff", "JSON"),
        ("{}", "no fault"),
        ('{"ok":true}', "no fault"),
        ('{"code":201,"layer":-1}', "no fault"),
        ('{"at":0,"code":101,"field":4294967296,"scope":"tile"}', "out of range"),
    ],
)
def test_texts_that_are_no_fault(text: str, reason: str) -> None:
    with pytest.raises(mvtgate.NotAFault, match=reason):
        mvtgate.confirm(b"", text)
    with pytest.raises(mvtgate.NotAFault):
        mvtgate.Fault.from_text(text)


def test_threads() -> None:
    tiles = [(it.tile, profile, lines) for it in SAMPLES for profile, lines in it.lines.items()]
    wrong: List[str] = []

    def work(number: int) -> None:
        for at in range(3 * len(tiles)):
            tile, profile, lines = tiles[(at * 7 + number) % len(tiles)]
            line = check_line(tile, profile)
            if line not in lines:
                wrong.append(line)

    threads = [threading.Thread(target=work, args=(it,)) for it in range(8)]
    for it in threads:
        it.start()
    for it in threads:
        it.join()
    assert wrong == []


def test_interpreters() -> None:
    pytest.importorskip("_xxsubinterpreters")
    run = subprocess.run([sys.executable, HERE / "interpreters.py", TOP / "tiles/crossing_edges.mvt", LINE], capture_output=True, text=True)
    assert (run.returncode, run.stdout, run.stderr) == (0, "12 interpreters\n", "")


@pytest.fixture(scope="module")
def large_tile() -> Iterator[bytes]:
    yield saw(150_000)


def test_lock_is_let_go(large_tile: bytes) -> None:
    """Python code runs while a call of some tenths of a second does."""
    answers: List[str] = []
    thread = threading.Thread(target=lambda: answers.append(check_line(large_tile)))
    ticks = 0
    thread.start()
    while thread.is_alive():
        time.sleep(0.001)
        ticks += 1
    assert answers == [YES]
    assert ticks > 5


REFUSED = """
import resource, sys, mvtgate
tile = sys.stdin.buffer.read()
mvtgate.check(b"")
used = int(open("/proc/self/statm").read().split()[0]) * resource.getpagesize()
resource.setrlimit(resource.RLIMIT_AS, (used + 2**20, resource.RLIM_INFINITY))
try:
    mvtgate.check(tile)
except MemoryError as error:
    resource.setrlimit(resource.RLIMIT_AS, (resource.RLIM_INFINITY, resource.RLIM_INFINITY))
    print(error, mvtgate.check(tile))
"""


def test_refused_memory(large_tile: bytes) -> None:
    run = subprocess.run([sys.executable, "-c", REFUSED], input=large_tile, capture_output=True)
    assert (run.returncode, run.stdout, run.stderr) == (0, b"mvtgate: out of memory None\n", b"")


def test_profiles() -> None:
    assert [it.value for it in Profile] == [0, 1]


def test_where_the_library_is(monkeypatch: pytest.MonkeyPatch) -> None:
    monkeypatch.delenv("MVTGATE_LIBRARY", raising=False)
    made = TOP / "bindings/c/out/libmvtgate.so"
    assert _library._candidates() == ([str(made)] if made.exists() else []) + [f"libmvtgate.so.{VERSION.split('.')[0]}"]
    monkeypatch.setenv("MVTGATE_LIBRARY", "other.so")
    assert _library._candidates() == ["other.so"]


@pytest.mark.parametrize("named", ["/nowhere/libmvtgate.so", "libm.so.6", str(TOP / "README.md")])
def test_other_library(named: str) -> None:
    run = subprocess.run([sys.executable, "-c", "import mvtgate"], env={"MVTGATE_LIBRARY": named, "PYTHONPATH": ":".join(sys.path)}, capture_output=True, text=True)
    assert run.returncode == 1
    assert "LibraryNotFound: mvtgate: " in run.stderr.splitlines()[-1]

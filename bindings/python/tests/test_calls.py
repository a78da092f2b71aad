"""Both ways to call the library, the extension and ctypes, with a library that stands in the place of the real one: what it is given,
what becomes of its answers, and what holds while it works."""
from __future__ import annotations

import array
import ctypes
import mmap
import os
import pathlib
import sys
import threading
import time
from typing import Any, Callable, Dict, Iterator, List, Tuple, Type

import pytest

import mvtgate
from calls import WAYS, StandIn, compiled, loader
from mvtgate import Profile, _by_ctypes, _library, _statuses
from mvtgate._library import Calls

TILE = b"\x1a\x05\x78\x02\x0a\x01a"
LIST_ROOM, MORE = 65_536, 4_096
Call = Callable[[Any], object]


@pytest.fixture(scope="session")
def compiled_stand_in(tmp_path_factory: pytest.TempPathFactory) -> StandIn:
    made = tmp_path_factory.mktemp("stand_in") / "stand_in.so"
    return StandIn(compiled(made, pathlib.Path(__file__).with_name("stand_in.c")))


@pytest.fixture
def stand_in(compiled_stand_in: StandIn) -> Iterator[StandIn]:
    compiled_stand_in.begin()
    yield compiled_stand_in
    compiled_stand_in.set(is_closed=0)


@pytest.fixture(params=WAYS)
def calls(request: pytest.FixtureRequest, stand_in: StandIn) -> Calls:
    return loader(request.param)(str(stand_in.path))


def each_call(calls: Calls) -> Dict[str, Call]:
    """The calls on a tile, each with one word of a tile."""
    return {
        "check": lambda it: calls.check(0, it, False),
        "check_quickly": lambda it: calls.check(0, it, True),
        "faults": lambda it: calls.faults(0, it, False),
        "faults_quickly": lambda it: calls.faults(0, it, True),
        "mend": lambda it: calls.mend(0, it, False),
        "confirm": lambda it: calls.confirm(0, it, b"{}"),
        "dump": calls.dump,
        "advise": calls.advise,
    }


NAMES = list(each_call(_library.calls))
each_name = pytest.mark.parametrize("name", NAMES)


def test_which_way_is_taken() -> None:
    """The extension, unless it is to be ctypes."""
    way = "_by_ctypes" if os.environ.get("MVTGATE_CTYPES") else "_native"
    assert type(_library.calls).__module__ == f"mvtgate.{way}"


def test_answers(calls: Calls, stand_in: StandIn) -> None:
    stand_in.set(answer=0)
    assert calls.check(0, TILE, False) is None and calls.faults(0, TILE, False) == ""
    assert calls.mend(0, TILE, False) == (0, b"", "")
    assert calls.dump(TILE) == calls.advise(TILE) == (True, "")
    stand_in.set(answer=1, wanted=3)
    assert calls.check(0, TILE, False) == calls.check(0, TILE, True) == "xxx"
    assert calls.faults(0, TILE, False) == calls.faults(0, TILE, True) == "xxx"
    assert calls.dump(TILE) == calls.advise(TILE) == (False, "xxx")
    assert calls.mend(0, TILE, False) == (1, b"", "xxx")
    stand_in.set(answer=8, wanted_out=5)
    assert calls.mend(0, TILE, True) == (8, b"xxxxx", "xxx")
    assert calls.version() == 10203


@pytest.mark.parametrize("status", [0, 1, 5, 6, 7])
def test_statuses_of_confirm(calls: Calls, stand_in: StandIn, status: int) -> None:
    stand_in.set(answer=status)
    assert calls.confirm(0, TILE, b"") == status


@each_name
@pytest.mark.parametrize("status, error", [(2, MemoryError), (4, RuntimeError), (9, RuntimeError), (-1, RuntimeError)])
def test_statuses_of_no_answer(calls: Calls, stand_in: StandIn, name: str, status: int, error: Type[Exception]) -> None:
    stand_in.set(answer=status)
    tile = bytearray(TILE)
    with pytest.raises(error) as raised:
        each_call(calls)[name](tile)
    told = "mvtgate: out of memory" if status == 2 else f"mvtgate: the library returned the status {status}, which this package doesn't know"
    assert str(raised.value) == told
    tile.append(0)


def test_statuses_by_the_package(calls: Calls, stand_in: StandIn, monkeypatch: pytest.MonkeyPatch) -> None:
    for name in ("check", "faults", "mend", "confirm", "dump", "advise"):
        monkeypatch.setattr(_library, name, getattr(calls, name))
    its: List[Callable[[], object]] = [
        lambda: mvtgate.check(TILE),
        lambda: mvtgate.check(TILE, quick=True),
        lambda: mvtgate.faults(TILE),
        lambda: mvtgate.faults(TILE, quick=True),
        lambda: mvtgate.mend(TILE),
        lambda: mvtgate.confirm(TILE, "{}"),
        lambda: mvtgate.dump(TILE),
        lambda: mvtgate.advise(TILE),
    ]
    for status, error in ((2, MemoryError), (4, RuntimeError), (9, RuntimeError)):
        stand_in.set(answer=status)
        for call in its:
            with pytest.raises(error):
                call()


@pytest.mark.parametrize("name", ["faults", "mend", "dump", "advise"])
def test_no_room_for_what_fits(calls: Calls, stand_in: StandIn, name: str) -> None:
    """A library that says so has no answer, and isn't called for ever."""
    stand_in.set(answer=_statuses.NO_ROOM)
    with pytest.raises(RuntimeError, match="status 3"):
        each_call(calls)[name](TILE)
    assert stand_in["calls"] == 1


@pytest.mark.parametrize("name", ["faults", "faults_quickly", "dump", "advise"])
def test_long_texts(calls: Calls, stand_in: StandIn, name: str) -> None:
    """A text that has no room in the first call's is asked for again, with a room of just its length."""
    stand_in.set(answer=1, wanted=LIST_ROOM + 1)
    told = each_call(calls)[name](TILE)
    assert told in ("x" * (LIST_ROOM + 1), (False, "x" * (LIST_ROOM + 1)))
    assert stand_in.rooms() == [LIST_ROOM, LIST_ROOM + 1]
    # (and what was made for it isn't kept)
    stand_in.set(wanted=1)
    assert each_call(calls)[name](TILE) in ("x", (False, "x"))
    assert stand_in.rooms()[2:] == [LIST_ROOM]


@pytest.mark.parametrize("wanted, wanted_out", [(LIST_ROOM + 1, 0), (0, MORE + 100), (LIST_ROOM + 1, MORE + 100), (LIST_ROOM, MORE + len(TILE))])
def test_long_reports_and_tiles(calls: Calls, stand_in: StandIn, wanted: int, wanted_out: int) -> None:
    stand_in.set(answer=8, wanted=wanted, wanted_out=wanted_out)
    assert calls.mend(0, TILE, False) == (8, b"x" * wanted_out, "x" * wanted)
    is_long = wanted > LIST_ROOM or wanted_out > MORE + len(TILE)
    assert stand_in["calls"] == 1 + is_long
    assert stand_in.rooms()[0] == LIST_ROOM and stand_in.rooms("out_rooms")[0] == MORE + len(TILE)
    assert not is_long or (stand_in.rooms()[1] >= wanted and stand_in.rooms("out_rooms")[1] >= wanted_out)


def test_room_of_check(calls: Calls, stand_in: StandIn) -> None:
    """No fault's text is longer, by the header."""
    stand_in.set(answer=1, wanted=384)
    assert calls.check(0, TILE, False) == "x" * 384
    assert stand_in.rooms() == [384]


@pytest.mark.parametrize("name", ["check", "faults", "mend", "dump", "advise"])
def test_text_that_is_no_text(calls: Calls, stand_in: StandIn, name: str) -> None:
    stand_in.set(answer=1, wanted=3, filling=0xFF)
    with pytest.raises(UnicodeDecodeError):
        each_call(calls)[name](TILE)


def test_words_that_are_handed_over(calls: Calls, stand_in: StandIn) -> None:
    for profile in Profile:
        calls.check(profile, TILE, False)
        assert (stand_in["profile"], stand_in["flag"]) == (profile.value, 0)
    for call in (calls.check, calls.faults):
        stand_in.set(flag=0)
        call(0, TILE, True)
        assert stand_in["flag"] == 1
    for drop in (False, True):
        calls.mend(1, TILE, drop)
        assert (stand_in["profile"], stand_in["flag"]) == (1, drop)
    stand_in.begin()
    calls.confirm(1, TILE, b"some text")
    assert (stand_in["profile"], stand_in.rooms()) == (1, [9])


def address_of(it: Any) -> int:
    """Where the bytes of a bytes object, or of a writable one, lie."""
    if isinstance(it, bytes):
        return ctypes.cast(ctypes.c_char_p(it), ctypes.c_void_p).value or 0
    return ctypes.addressof(ctypes.c_char.from_buffer(it))


def objects_with_bytes() -> List[Tuple[Any, int]]:
    """Objects, and where their bytes lie."""
    writable = bytearray(TILE)

    class Subclass(bytes):
        pass

    own = Subclass(TILE)
    return [
        (TILE, address_of(TILE)),
        (own, address_of(own)),
        (writable, address_of(writable)),
        (memoryview(writable)[3:], address_of(writable) + 3),
        (memoryview(TILE)[5:], address_of(TILE) + 5),
    ]


@each_name
def test_nothing_is_copied(calls: Calls, stand_in: StandIn, name: str) -> None:
    for it, where in objects_with_bytes():
        each_call(calls)[name](it)
        assert (stand_in["bytes"], stand_in["length"]) == (where, len(it))


@each_name
@pytest.mark.parametrize("empty", [b"", bytearray(), memoryview(b""), array.array("B"), memoryview(TILE)[:0]], ids=lambda it: type(it).__name__)
def test_no_bytes_are_not_at_null(calls: Calls, stand_in: StandIn, name: str, empty: Any) -> None:
    each_call(calls)[name](empty)
    assert stand_in["length"] == 0 and stand_in["bytes"] != 0


def wait_for(what: Callable[[], bool]) -> None:
    end = time.monotonic() + 300
    while not what():
        assert time.monotonic() < end
        time.sleep(0.001)


@each_name
def test_while_a_call_runs(calls: Calls, stand_in: StandIn, name: str) -> None:
    """The interpreter's lock is let go, and the bytes stay where they are: they can't be moved, unmapped or released."""
    call = each_call(calls)[name]
    tile, view = bytearray(TILE), memoryview(bytearray(TILE))
    with mmap.mmap(-1, 4096) as mapped:
        its: List[Tuple[Any, Callable[[], object]]] = [(tile, lambda: tile.append(0)), (mapped, mapped.close), (view, view.release)]
        for it, move in its:
            stand_in.set(is_closed=1)
            thread = threading.Thread(target=call, args=(it,))
            thread.start()
            wait_for(lambda: stand_in["is_inside"] == 1)
            with pytest.raises(BufferError):
                move()
            stand_in.set(is_closed=0)
            thread.join()
            move()


@each_name
def test_references_are_given_back(calls: Calls, stand_in: StandIn, name: str) -> None:
    call = each_call(calls)[name]
    its: List[Any] = [bytes(bytearray(TILE)), bytearray(TILE), memoryview(TILE)]
    for it in its:
        for status in (0, 1, 2, 9):
            stand_in.set(answer=status)
            before = sys.getrefcount(it)
            for _ in range(100):
                try:
                    call(it)
                except (MemoryError, RuntimeError):
                    assert status in (2, 9)
            assert sys.getrefcount(it) == before


@each_name
@pytest.mark.parametrize("it", ["text", None, 5, [1, 2], 1.5, object()], ids=lambda it: type(it).__name__)
def test_objects_without_bytes(calls: Calls, stand_in: StandIn, name: str, it: Any) -> None:
    told = f"a tile is bytes, or an object with bytes such as bytearray, memoryview or mmap, not {type(it).__name__}"
    with pytest.raises(TypeError) as raised:
        each_call(calls)[name](it)
    assert str(raised.value) == told and raised.value.__cause__ is None and stand_in["calls"] == 0


@each_name
def test_bytes_that_cannot_be_read_in_place(calls: Calls, stand_in: StandIn, name: str) -> None:
    call = each_call(calls)[name]
    with pytest.raises(TypeError) as raised:
        call(memoryview(TILE)[::2])
    assert isinstance(raised.value.__cause__, BufferError)
    assert str(raised.value) == f"the bytes of this memoryview aren't contiguous: {raised.value.__cause__}; hand over bytes(..) of it"
    released = memoryview(TILE)
    released.release()
    with pytest.raises(ValueError):
        call(released)
    assert stand_in["calls"] == 0


def test_head(calls: Calls) -> None:
    for it in (TILE, bytearray(TILE), memoryview(TILE)):
        assert [calls.head(it, most) for most in (0, 1, 3, 100)] == [b"", TILE[:1], TILE[:3], TILE]
    assert calls.head(b"", 1) == calls.head(bytearray(), 1) == b""
    wrong: Any = "text"
    with pytest.raises(TypeError, match="a tile is bytes"):
        calls.head(wrong, 1)


@pytest.mark.parametrize(
    "name, words",
    [("check", (0, TILE)), ("check", ("0", TILE, False)), ("faults", (0, TILE, False, 1)), ("mend", ()), ("confirm", (0, TILE)), ("head", (TILE,)), ("dump", ())],
)
def test_wrong_words(calls: Calls, name: str, words: Tuple[object, ...]) -> None:
    with pytest.raises((TypeError, ctypes.ArgumentError)):
        getattr(calls, name)(*words)


def test_rooms_of_ctypes(stand_in: StandIn) -> None:
    """There are never more than calls at one time."""
    calls = _by_ctypes.Library(str(stand_in.path))
    threads = [threading.Thread(target=lambda: [calls.check(0, TILE, False) for _ in range(500)]) for _ in range(8)]
    for it in threads:
        it.start()
    for it in threads:
        it.join()
    assert 1 <= len(calls._rooms.unused) <= 8


@pytest.mark.parametrize("way", WAYS)
def test_other_libraries(way: str, tmp_path: pathlib.Path) -> None:
    load = loader(way)
    for name in ("/nowhere/libmvtgate.so", str(tmp_path)):
        with pytest.raises(OSError, match="cannot open|cannot read"):
            load(name)
    # (of a name that is no text ctypes doesn't say what the system does)
    with pytest.raises(OSError):
        load("\udcff")
    with pytest.raises(AttributeError, match="^mvtgate_check$"):
        load("libm.so.6")
    with pytest.raises((TypeError, ValueError)):
        load("a\0b")


@pytest.mark.parametrize("way", WAYS)
def test_wrong_words_of_loading(way: str) -> None:
    load: Any = loader(way)
    for words in ((), ("a", "b")):
        with pytest.raises(TypeError):
            load(*words)
    with pytest.raises(TypeError):
        load(name="a")


def test_the_real_library_in_both_ways() -> None:
    """One process may have both, and another library beside it."""
    for way in WAYS:
        real = loader(way)(_library._candidates()[0])
        assert real.check(0, TILE, False) is None and real.version() == _library.version()
        with pytest.raises(RuntimeError, match="status 4"):
            real.check(2, TILE, False)
        assert real.check(0, TILE[:-1], False) == mvtgate.check(TILE[:-1]).text  # type: ignore[union-attr]

"""The C that both extensions share: its words beside those of Python, and its calls with memory refused, under the sanitizers and
under valgrind."""
from __future__ import annotations

import json
import pathlib
import subprocess
from typing import Any, Callable, Dict, Iterator, List, Tuple

import pytest

import mvtgate
from samples import PROFILES, SAMPLES, TOP

SHARED, LIBRARY = TOP / "bindings/sql", TOP / "bindings/c/out"
SOURCES = [SHARED / name for name in ("tests/harness.c", "calls.c", "explain.c", "member.c", "words.c")]
WAYS: Dict[str, Tuple[List[str], List[str]]] = {
    "sanitizers": (["-fsanitize=address,undefined", "-fno-sanitize-recover=all"], []),
    "valgrind": ([], ["valgrind", "--quiet", "--error-exitcode=9", "--leak-check=full"]),
}


@pytest.fixture(scope="module", params=WAYS)
def program(request: Any, tmp_path_factory: pytest.TempPathFactory) -> List[str]:
    """The words by which the harness is run."""
    flags, before = WAYS[request.param]
    path = tmp_path_factory.mktemp("harness") / "harness"
    strict = ["-std=gnu99", "-O1", "-g", "-Wall", "-Wextra", "-Werror", "-Wpedantic"]
    words = ["gcc", *strict, *flags, f"-I{SHARED}", f"-I{LIBRARY}", *map(str, SOURCES), str(LIBRARY / "libmvtgate.a"), "-o", str(path)]
    subprocess.run(words, check=True)
    return [*before, str(path)]


def explained(program: List[str], texts: List[str]) -> List[str]:
    run = subprocess.run(program, input="".join(f"{it}\n" for it in texts), check=True, capture_output=True, text=True)
    assert run.stderr == ""
    return run.stdout.split("\n\n")[:-1]


EDGE = {"edge": 7, "ring": 8}
MEETING: Dict[str, Any] = {"code": 504, "feature": 1, "first": EDGE, "layer": 2, "polygon": 3, "second": EDGE}
GREATEST, LEAST = 2**127 - 1, -(2**127)
POINTS = [(800, 180, 180), (-2500, 0, 200), (5, -5, -10), (8000, 7, 400), (LEAST, GREATEST, 1), (LEAST, 0, LEAST), (7, 0, 0), (GREATEST, LEAST, GREATEST)]


SCOPES: Dict[str, List[str]] = {"tile": [], "layer": ["layer"], "value": ["layer", "value"], "feature": ["feature", "layer"]}


def all_kinds() -> Iterator[Dict[str, Any]]:
    """Faults of each code, with small numbers and with the greatest."""
    for number in (0, 3, 2**64 - 1):
        for scope, names in SCOPES.items():
            for field in (*range(11), 15, 2**32 - 1):
                yield {"at": number, "code": 101 + field % 11, "field": field, "scope": scope, **{name: number for name in names}}
        yield {"code": 201, "layer": number}
        yield {"code": 202, "first": number, "second": number}
        in_feature = {"feature": number, "layer": number}
        for code in (301, 302, 303, 304, 401, 402, 403, 404, 405, 406):
            yield {"code": code, "index": number, **in_feature}
        for code in (501, 502, 503):
            yield {"code": code, "ring": number, **in_feature}
        yield {"code": 505, "polygon": number, "ring": number, "vertex": number, **in_feature}
        yield {"code": 506, "other": number, "polygon": number, "ring": number, "vertex": number, **in_feature}
        yield {"code": 507, "other": number, "polygon": number, "vertex": number, **in_feature}
    for x, y, w in POINTS:
        yield {**MEETING, "x": str(x), "y": str(y), "w": str(w)}


def test_words_are_those_of_python(program: List[str]) -> None:
    faults = list(all_kinds())
    assert {it["code"] for it in faults} == {int(it) for it in json.loads((TOP / "bindings/faults.json").read_text())["faults"]}
    assert explained(program, [json.dumps(it, separators=(",", ":")) for it in faults]) == [words_of(it) for it in faults]


def words_of(fault: Dict[str, Any]) -> str:
    """Those of Python."""
    return mvtgate.explain(mvtgate.Fault.from_text(json.dumps(fault)))


def escaped(text: str) -> str:
    return '"' + "".join(f"\\u{ord(it):04{'xX'[at % 2]}}" for at, it in enumerate(text)) + '"'


def respelled(value: Any, string: Callable[[str], str]) -> str:
    """The same JSON with spaces, with keys in another order, and with other values before those that count."""
    if isinstance(value, str):
        return string(value)
    if not isinstance(value, dict):
        return str(value)
    others = ["null", '"a\\"}\\\\"', '{"code": [1, {"ring": 7}], "ring": "]"}', "[[], {}]", "-1.5e2", '"\\u2028\\n"']
    before = [f"{string(key)} :{others[at % len(others)]}" for at, key in enumerate(value)]
    return "{ " + " ,".join([*before, *(f"{string(key)}\t: {respelled(it, string)}\r" for key, it in reversed(value.items()))]) + " } "


@pytest.mark.parametrize("string", [json.dumps, escaped])
def test_a_fault_may_be_spelled_otherwise(program: List[str], string: Callable[[str], str]) -> None:
    # (the last of equal keys counts: RFC 8259 leaves it open, and the library has it so)
    faults = list(all_kinds())
    assert explained(program, [respelled(it, string) for it in faults]) == [words_of(it) for it in faults]


def test_no_fault_is_explained(program: List[str]) -> None:
    wrong: List[Dict[str, Any]] = [{}, {"code": 999}, {"code": 201}, {"code": "x", "layer": 1}, {**MEETING, "x": "1", "y": "1"}, {"code": 101, "at": 1, "field": 1, "scope": "row"}]
    texts = [json.dumps(it) for it in wrong]
    # (nothing is read behind a text, though only whole JSON is handed over)
    whole = json.dumps({**MEETING, "x": "1", "y": "1", "w": "1"})
    texts += ["", "[]", "7", '"', *(whole[:length] for length in range(len(whole) - 6))]
    assert explained(program, texts) == ["no fault"] * len(texts)


def expected(tile: bytes, name: str, call: str) -> List[str]:
    """The status and the texts that a call has to answer, as Python's package does."""
    profile = mvtgate.Profile[name.upper()]
    if call in ("mend", "drop"):
        try:
            mended = mvtgate.mend(tile, profile, drop=call == "drop")
        except mvtgate.Refused as error:
            return ["1", error.fault.text]
        return ["8", mended.tile.hex()] if mended.changed else ["0"]
    if call == "dump":
        try:
            mvtgate.dump(tile)
        except mvtgate.NotATile as error:
            return ["1", error.fault.text]
        return ["0"]
    faults = mvtgate.faults(tile, profile, quick=True)
    texts = [it.text for it in (faults[:1] if call == "check" else faults)]
    return ["1", *texts] if texts else ["0"]


def test_calls(program: List[str], tmp_path: pathlib.Path) -> None:
    # (whose lists and dumps don't fit into the first room: features with a ring of two vertices, and layers of one name)
    features = b"\x78\x02\x0a\x01a" + b"\x12\x0b\x18\x03\x22\x07\x09\x00\x00\x0a\x14\x00\x0f" * 1000
    length = bytes([len(features) % 128 + 128, len(features) // 128])
    layers = b"\x1a\x04\x78\x02\x0a\x00" * 1000
    tiles = [*(it.tile for it in SAMPLES), b"\x1a" + length + features, layers]
    files = [tmp_path / f"{at}.mvt" for at in range(len(tiles))]
    for path, tile in zip(files, tiles):
        path.write_bytes(tile)
    run = subprocess.run([*program, *files], capture_output=True, text=True)
    assert run.returncode == 0 and run.stderr == "", run.stdout[-1000:] + run.stderr[-3000:]
    lines = run.stdout.splitlines()
    assert len(lines) == len(tiles) * 5 * len(PROFILES)
    for line in lines:
        at, call, profile, *words = line.split()
        wanted = expected(tiles[int(at)], profile, call)
        assert words[: len(wanted)] == wanted, (line[:300], wanted[:3])
        if call == "dump" and wanted == ["0"]:
            assert json.loads(line.split(" ", 4)[4]) == mvtgate.dump(tiles[int(at)])

"""The words for faults and advice: every code and kind, every place of them filled; and the document that is made from them."""
from __future__ import annotations

import dataclasses
import json
import re
import subprocess
from fractions import Fraction
from typing import Any, Dict, Iterator, List

import pytest

import mvtgate
from conftest import SAMPLES, TOP, VERSION
from mvtgate import Advice, Fault, Profile, _words

WORDS = json.loads((TOP / "bindings/faults.json").read_text())
KEYS = {"title", "sentence", "place", "meaning", "cause", "remedy"}
PLACE = re.compile(r"[{}]")


def text_of(**members: Any) -> str:
    return json.dumps(members, separators=(",", ":"), sort_keys=True)


SCOPES: Dict[str, Dict[str, int]] = {
    "tile": {},
    "layer": {"layer": 1},
    "value": {"layer": 1, "value": 2},
    "feature": {"layer": 1, "feature": 2},
}


def texts_of(code: int) -> Iterator[str]:
    """Texts of a code: of a wire fault in each scope, by each field that has a name, one that has none, and no field."""
    if code > 200:
        yield from {line for it in SAMPLES for lines in it.lines.values() for line in lines if f'"code":{code},' in line}
        return
    for scope, ordinals in SCOPES.items():
        for number in range(18):
            yield text_of(at=7, code=code, field=number, scope=scope, **ordinals)


def test_codes() -> None:
    # (tests/rule holds them against the rules)
    assert list(map(int, WORDS["faults"])) == sorted({int(it) for it in WORDS["faults"]})
    assert list(WORDS["advice"]) == ["no_layer", "no_feature", "equal_key", "equal_id"]


@pytest.mark.parametrize("words", [*WORDS["faults"].values(), *WORDS["advice"].values()], ids=lambda it: str(it["title"]))
def test_form_of_words(words: Dict[str, str]) -> None:
    assert KEYS <= set(words)
    assert not words["title"].endswith(".") and not PLACE.search(words["title"])
    assert words["sentence"].endswith(".") and not words["place"].endswith(".")
    for key in ("meaning", "cause", "remedy"):
        assert words[key].endswith(".") and not PLACE.search(words[key])


@pytest.mark.parametrize("code", map(int, WORDS["faults"]))
def test_every_code(code: int) -> None:
    texts = list(texts_of(code))
    assert texts
    for text in texts:
        fault = Fault.from_text(text)
        assert fault.text == text and fault.code == code
        lines = mvtgate.explain(fault).splitlines()
        assert lines[0] == f"{code}: {fault.title}" and lines[1] == fault.sentence
        assert [it.split(":")[0] for it in lines[2:4]] == ["Cause", "What to do"]
        for said in (*lines, fault.place, str(fault)):
            assert said and not PLACE.search(said) and "None" not in said
        for key, number in fault.members.items():
            # (each ordinal stands in the sentence; the list of 108 and 109 has no field 0)
            if isinstance(number, int) and key not in ("code", "field"):
                assert re.search(rf"\b{number}\b", fault.sentence), key


@pytest.mark.parametrize("code", map(int, WORDS["faults"]))
def test_sample_of_code(code: int) -> None:
    words = WORDS["faults"][str(code)]
    profile = Profile[words.get("profile", "polygon").upper()]
    fault = mvtgate.check((TOP / f"tiles/{words['sample']}.mvt").read_bytes(), profile)
    assert fault is not None and fault.code == code


@pytest.mark.parametrize("kind", WORDS["advice"])
def test_every_kind_of_advice(kind: str) -> None:
    [told] = json.loads(WORDS["advice"][kind]["example"])["advice"]
    advice = Advice(**told)
    assert advice.kind == kind
    for said in (*mvtgate.explain(advice).splitlines(), advice.place, str(advice)):
        assert said and not PLACE.search(said) and "None" not in said


def test_examples_of_advice() -> None:
    for kind, name in (("no_layer", "empty"), ("no_feature", "bare_layer"), ("equal_key", "two_keys_of_one_text")):
        found = mvtgate.advise((TOP / f"tiles/{name}.mvt").read_bytes())
        assert [Advice(**it) for it in json.loads(WORDS["advice"][kind]["example"])["advice"]] == found


@pytest.mark.parametrize(
    "x, w, said", [("800", "180", "40/9"), ("-7", "2", "-7/2"), ("10", "2", "5"), ("0", "3", "0"), ("7", "-2", "-7/2"), ("8", "0", "8/0")]
)
def test_fractions(x: str, w: str, said: str) -> None:
    assert _words.fill("{x/w}", {"x": x, "w": w}) == said


def test_sentences() -> None:
    """Some, word for word."""
    for text, sentence in {
        '{"at":15,"code":101,"feature":0,"field":4,"layer":0,"scope":"feature"}': "In feature 0 of layer 0, the varint of field 4 (geometry) that is due at byte 15 ends too early.",
        '{"at":0,"code":102,"field":0,"scope":"tile"}': "In the tile, the varint of a field key at byte 0 is too long.",
        '{"at":2,"code":104,"field":99,"scope":"tile"}': "In the tile, field 99 at byte 2 has a wire type that no tile uses.",
        '{"code":202,"first":0,"second":1}': "Layers 0 and 1 have one name.",
        '{"code":507,"feature":4,"layer":0,"other":1,"polygon":3,"vertex":2}': "In feature 4 of layer 0, vertex 2 of the exterior of polygon 3 is inside polygon 1.",
    }.items():
        assert Fault.from_text(text).sentence == sentence


def test_fault_as_a_value() -> None:
    text = (TOP / "tiles/expected/crossing_edges.check").read_text()
    one, other = Fault.from_text(text), Fault.from_text(text.replace(",", ", ").encode())
    assert one == other and hash(one) == hash(other) and len({one, other}) == 1 and one.text == text.strip()
    assert one != Fault.from_text(text.replace('"layer":0', '"layer":1'))
    assert one.point == (Fraction(40, 9), Fraction(40, 9))
    assert one.first == mvtgate.RingEdge(ring=0, edge=0)
    with pytest.raises(dataclasses.FrozenInstanceError):
        setattr(one, "code", 1)


WRONG: List[Any] = [
    "[]", "5", "{}", '{"code":100}', '{"code":"201","layer":0}', '{"code":201}', '{"code":201,"layer":0,"ring":0}', '{"code":201,"layer":true}',
    '{"code":201,"layer":1.0}', '{"code":201,"layer":-0}', '{"code":201,"layer":18446744073709551616}', '{"at":0,"code":101,"field":0,"scope":"ring"}',
    '{"at":0,"code":101,"field":0,"scope":[]}', '{"at":0,"code":101,"field":4294967296,"scope":"tile"}', "[" * 100000,
]  # fmt: skip


@pytest.mark.parametrize("text", WRONG, ids=lambda it: str(it[:40]))
def test_texts_of_another_form(text: str) -> None:
    with pytest.raises(mvtgate.NotAFault):
        Fault.from_text(text)


PLAIN = '{"code":201,"layer":0}'
ENCODED = [PLAIN.encode(it) for it in ("utf-8-sig", "utf-16", "utf-16-le", "utf-16-be", "utf-32", "utf-32-le", "utf-32-be")]


@pytest.mark.parametrize("text", [*ENCODED, f"\ufeff{PLAIN}", PLAIN.encode() + b"\xff", b""], ids=str)
def test_texts_that_are_no_utf_8(text: Any) -> None:
    """JSON that programs exchange is UTF-8 and has no byte order mark (RFC 8259 section 8.1)."""
    with pytest.raises(mvtgate.NotAFault, match="not JSON"):
        Fault.from_text(text)


def test_kinds_of_texts() -> None:
    wanted = Fault.from_text(PLAIN)
    assert Fault.from_text(PLAIN.encode()) == wanted and wanted.text == PLAIN
    others: List[Any] = [None, 5, memoryview(PLAIN.encode()), {"code": 201, "layer": 0}]
    for it in others:
        with pytest.raises(TypeError):
            Fault.from_text(it)


@pytest.mark.parametrize("other", ["1", "-0", "1.5", "null", '"\\u00e4"', '{"layer":[]}', "9" * 300])
def test_of_equal_keys_the_last_counts(other: str) -> None:
    """Whatever the one before has, as long as it is JSON."""
    assert Fault.from_text(f'{{"code":504,"code":201,"layer":{other},"layer":0}}').text == PLAIN
    text = f'{{"code":201,"layer":0,"layer":{other}}}'
    if other == "1":
        assert Fault.from_text(text).layer == 1
        return
    with pytest.raises(mvtgate.NotAFault):
        Fault.from_text(text)


@pytest.mark.parametrize("other", ["NaN", "-Infinity", "1e999", "9" * 400, "9" * 5000, '"\\ud800"', '{"\\udfff":0}', '"\ud800"', "01", "'a'"], ids=lambda it: ascii(it[:20]))
def test_no_json_before_an_equal_key(other: str) -> None:
    """No part of a text may be other than JSON of texts and of numbers that doubles come near (RFC 8259 sections 6 to 8)."""
    with pytest.raises(mvtgate.NotAFault, match="not JSON"):
        Fault.from_text(f'{{"code":201,"layer":{other},"layer":0}}')


@pytest.mark.parametrize("number", ["5", "1.5", "+1", "01", "-0", "", " 1", str(2**127)])
def test_points_of_another_form(number: str) -> None:
    members = json.loads((TOP / "tiles/expected/crossing_edges.check").read_text())
    text = json.dumps({**members, "x": int(number) if number == "5" else number})
    with pytest.raises(mvtgate.NotAFault):
        Fault.from_text(text)


def test_document_is_made_from_the_words() -> None:
    run = subprocess.run([TOP / "bindings/make_faults", "--check"], capture_output=True, text=True)
    assert (run.returncode, run.stderr) == (0, "")


def test_version() -> None:
    assert mvtgate.version() == mvtgate.__version__ == VERSION

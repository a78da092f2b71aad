"""All sample tiles by both profiles, packed and not, beside the expected answers."""
from __future__ import annotations

import gzip
import json
import zlib
from functools import partial
from typing import Any, Callable, Dict

import pytest

import mvtgate
from samples import PROFILES, SAMPLES

PACKINGS: Dict[str, Callable[[bytes], bytes]] = {"plain": bytes, "gzip": partial(gzip.compress, mtime=0), "zlib": zlib.compress}
UNPACKINGS: Dict[str, Callable[[bytes], bytes]] = {"plain": bytes, "gzip": gzip.decompress, "zlib": zlib.decompress}
Answers = Callable[..., Dict[str, Any]]


@pytest.fixture(params=PACKINGS)
def packing(request: Any) -> str:
    return str(request.param)


@pytest.fixture
def answers(database: Any, packing: str) -> Answers:
    """What an expression answers for each tile of a table, by the sample's name."""
    database.execute("CREATE TABLE samples (name TEXT, tile BLOB)")
    database.executemany("INSERT INTO samples VALUES (?, ?)", ((it.name, PACKINGS[packing](it.tile)) for it in SAMPLES))

    def asked(expression: str, *words: Any) -> Dict[str, Any]:
        return dict(database.execute(f"SELECT name, {expression} FROM samples", words))

    return asked


def loaded(texts: Dict[str, Any]) -> Dict[str, Any]:
    return {name: text if text is None else json.loads(text) for name, text in texts.items()}


@pytest.mark.parametrize("profile", PROFILES)
def test_verdicts(answers: Answers, profile: str) -> None:
    faults = loaded(answers("mvt_fault(tile, ?)", profile))
    assert answers("mvt_is_valid(tile, ?)", profile) == {it.name: int(it.is_valid(profile)) for it in SAMPLES}
    assert [it.name for it in SAMPLES if not it.is_right(profile, faults[it.name])] == []
    assert faults == {it.name: it.quick_fault(profile) for it in SAMPLES}


def test_the_profile_that_is_taken_where_none_is_named(answers: Answers) -> None:
    for call in ("mvt_fault(tile{})", "mvt_is_valid(tile{})", "mvt_mend_report(tile{})", "(SELECT count(*) FROM mvt_faults(tile{}))"):
        assert answers(call.format("")) == answers(call.format(", 'polygon'"))


@pytest.mark.parametrize("profile", PROFILES)
def test_lists(answers: Answers, profile: str) -> None:
    lists = loaded(answers("(SELECT json_group_array(json(fault)) FROM mvt_faults(tile, ?))", profile))
    assert [it.name for it in SAMPLES if not it.is_right(profile, (lists[it.name] or [None])[0])] == []
    assert lists == {it.name: it.quick_faults(profile) for it in SAMPLES}


@pytest.mark.parametrize("profile", PROFILES)
def test_each_fault_is_confirmed_and_explained(answers: Answers, profile: str) -> None:
    confirmed = answers("mvt_confirm(tile, mvt_fault(tile, ?1), ?1)", profile)
    assert confirmed == {it.name: None if it.is_valid(profile) else 1 for it in SAMPLES}
    by_profile = mvtgate.Profile[profile.upper()]
    faults = {it.name: mvtgate.check(it.tile, by_profile, quick=True) for it in SAMPLES}
    assert answers("mvt_explain(mvt_fault(tile, ?))", profile) == {name: fault and mvtgate.explain(fault) for name, fault in faults.items()}


def test_dumps(answers: Answers) -> None:
    assert loaded(answers("mvt_dump(tile)")) == {it.name: it.dump() for it in SAMPLES}


@pytest.mark.parametrize("profile", PROFILES)
@pytest.mark.parametrize("drop", [0, 1])
def test_mending(answers: Answers, packing: str, profile: str, drop: int) -> None:
    reports = loaded(answers("mvt_mend_report(tile, ?, ?)", profile, drop))
    mended = answers("CASE WHEN mvt_mend_report(tile, ?1, ?2) ->> 'ok' THEN mvt_mend(tile, ?1, ?2) END", profile, drop)
    for it in SAMPLES:
        wanted, tile, report = it.mended(profile, bool(drop)), mended[it.name], reports[it.name]
        assert (tile if tile is None else UNPACKINGS[packing](tile)) == wanted, it.name
        if it.is_valid(profile):
            assert report == {"changed": [], "ok": True} and tile == PACKINGS[packing](it.tile), it.name
        elif wanted is None:
            assert it.confirms(profile, report), it.name
        else:
            assert report["ok"] is True and report["changed"] and mvtgate.check(wanted, mvtgate.Profile[profile.upper()]) is None, it.name

"""All sample tiles by both profiles, beside the expected answers."""
from __future__ import annotations

from typing import Any, Callable, Dict

import psycopg2  # type: ignore[import]
import pytest

import mvtgate
from samples import PROFILES, SAMPLES

Answers = Callable[..., Dict[str, Any]]


@pytest.fixture
def answers(cursor: Any) -> Answers:
    """What an expression answers for each tile of a table, by the sample's name."""
    cursor.execute("CREATE TABLE samples (name text, tile bytea)")
    for it in SAMPLES:
        cursor.execute("INSERT INTO samples VALUES (%s, %s)", (it.name, it.tile))

    def asked(expression: str, **words: Any) -> Dict[str, Any]:
        cursor.execute(f"SELECT name, {expression} FROM samples", words)
        return dict(cursor.fetchall())

    return asked


def test_there_are_all_samples() -> None:
    assert len(SAMPLES) > 120
    assert {it.is_valid("polygon") for it in SAMPLES} == {True, False}


@pytest.mark.parametrize("profile", PROFILES)
def test_verdicts(answers: Answers, profile: str) -> None:
    is_valid = answers("mvt_is_valid(tile, %(profile)s)", profile=profile)
    faults = answers("mvt_fault(tile, %(profile)s)", profile=profile)
    assert is_valid == {it.name: it.is_valid(profile) for it in SAMPLES}
    assert [it.name for it in SAMPLES if not it.is_right(profile, faults[it.name])] == []
    assert faults == {it.name: it.quick_fault(profile) for it in SAMPLES}


@pytest.mark.parametrize("profile", PROFILES)
def test_lists(answers: Answers, profile: str) -> None:
    lists = answers("ARRAY(SELECT fault FROM mvt_faults(tile, %(profile)s) AS fault)", profile=profile)
    assert [it.name for it in SAMPLES if not it.is_right(profile, (lists[it.name] or [None])[0])] == []
    assert lists == {it.name: it.quick_faults(profile) for it in SAMPLES}


@pytest.mark.parametrize("profile", PROFILES)
def test_each_fault_is_confirmed_and_explained(answers: Answers, profile: str) -> None:
    confirmed = answers("mvt_confirm(tile, mvt_fault(tile, %(profile)s), %(profile)s)", profile=profile)
    assert confirmed == {it.name: None if it.is_valid(profile) else True for it in SAMPLES}
    explained = answers("mvt_explain(mvt_fault(tile, %(profile)s))", profile=profile)
    by_profile = mvtgate.Profile[profile.upper()]
    faults = {it.name: mvtgate.check(it.tile, by_profile, quick=True) for it in SAMPLES}
    assert explained == {name: fault and mvtgate.explain(fault) for name, fault in faults.items()}


def test_dumps(answers: Answers) -> None:
    assert answers("mvt_dump(tile)") == {it.name: it.dump() for it in SAMPLES}


@pytest.fixture
def mending(answers: Answers, cursor: Any) -> Answers:
    """The same with a function that answers null where mvt_mend refuses a tile."""
    cursor.execute(
        """CREATE FUNCTION mended(tile bytea, profile text, drop boolean) RETURNS bytea LANGUAGE plpgsql AS $$
           BEGIN RETURN mvt_mend(tile, profile, drop); EXCEPTION WHEN invalid_binary_representation THEN RETURN NULL; END $$"""
    )
    return answers


@pytest.mark.parametrize("profile", PROFILES)
@pytest.mark.parametrize("drop", [False, True])
def test_mending(mending: Answers, profile: str, drop: bool) -> None:
    mended = mending("mended(tile, %(profile)s, %(drop)s)", profile=profile, drop=drop)
    for it in SAMPLES:
        its = mended[it.name]
        assert (its and bytes(its)) == it.mended(profile, drop), it.name
        assert its is None or mvtgate.check(bytes(its), mvtgate.Profile[profile.upper()], quick=True) is None, it.name
    assert len([it for it in mended.values() if it is None]) < len([it for it in SAMPLES if not it.is_valid(profile)])


@pytest.mark.parametrize("profile", PROFILES)
@pytest.mark.parametrize("drop", [False, True])
def test_reports(mending: Answers, profile: str, drop: bool) -> None:
    reports = mending("mvt_mend_report(tile, %(profile)s, %(drop)s)", profile=profile, drop=drop)
    refused = mending("mended(tile, %(profile)s, %(drop)s) IS NULL", profile=profile, drop=drop)
    for it in SAMPLES:
        report = reports[it.name]
        if it.is_valid(profile):
            assert report == {"changed": [], "ok": True}, it.name
        elif refused[it.name]:
            assert report in it.faults[profile] or it.confirms(profile, report), it.name
        else:
            assert report["ok"] is True and report["changed"], it.name
            assert drop or all(change["what"] == "mended" for change in report["changed"]), it.name


def test_parallel_workers(answers: Answers, cursor: Any) -> None:
    cursor.execute("ALTER TABLE samples SET (parallel_workers = 4)")
    cursor.execute("INSERT INTO samples SELECT name, tile FROM samples, generate_series(1, 50)")
    for it in ("parallel_setup_cost = 0", "parallel_tuple_cost = 0", "mvtgate.longest_tile = 700"):
        cursor.execute(f"SET {it}")
    query = "SELECT count(*) FROM samples WHERE mvt_fault(tile) IS NOT NULL"
    cursor.execute(f"EXPLAIN (ANALYZE, FORMAT JSON) {query}")
    plan = str(cursor.fetchone()[0])
    assert "'Workers Launched': 0" not in plan and "Workers Launched" in plan
    cursor.execute(query)
    assert cursor.fetchone() == (51 * sum(not it.is_valid("polygon") for it in SAMPLES),)
    # (each worker has the bound that was set)
    cursor.execute("INSERT INTO samples VALUES ('long', %s)", (b"\x08\x01" * 351,))
    with pytest.raises(psycopg2.errors.ProgramLimitExceeded):
        cursor.execute(query)

"""Workers that end right after they joined: what is told of them, and when."""
from __future__ import annotations

from typing import List, Tuple

import pytest

from mvtgate.planet.attendance import Attendance

ONE, OTHER = "10.0.0.1", "10.0.0.2"


def come_and_go(it: Attendance, host: str, port: int, seconds: float) -> None:
    """A worker of a host that joins and, so many seconds later, ends."""
    worker = f"tcp://{host}:{port}"
    it.take((1000.0 + port, {"action": "add-worker", "worker": worker}))
    it.take((1000.0 + port + seconds, {"action": "remove-worker", "worker": worker, "processing-tasks": {"a"}}))


def told(host: str, count: int) -> str:
    return (
        f"{count} workers on {host} have ended within 10 seconds after they had joined: "
        "their log or the machine's may say why, such as memory that ran out"
    )


def test_told_at_three_and_each_time_they_have_doubled() -> None:
    it = Attendance()
    news: List[Tuple[int, List[str]]] = []
    for port in range(1, 26):
        come_and_go(it, ONE, port, 9.9)
        said = it.news(2)
        if said:
            news.append((port, said))
    assert news == [(count, [told(ONE, count)]) for count in (3, 6, 12, 24)]
    assert it.early == 25


def test_each_machine_by_itself() -> None:
    it = Attendance()
    for port in range(2):
        come_and_go(it, ONE, port, 1)
        come_and_go(it, OTHER, port, 1)
    assert it.news(4) == []
    come_and_go(it, OTHER, 2, 1)
    assert it.news(4) == [told(OTHER, 3)]


def test_workers_that_work_for_a_while() -> None:
    it = Attendance()
    for port in range(9):
        come_and_go(it, ONE, port, 10.1)
    # (one that joined before anybody listened, and what else a scheduler says)
    it.take((5.0, {"action": "remove-worker", "worker": f"tcp://{ONE}:99"}))
    it.take((5.0, {"action": "gather", "count": 1}))
    assert it.news(1) == [] and it.early == 0


def test_nobody_is_told_once(monkeypatch: pytest.MonkeyPatch) -> None:
    now = 0.0
    monkeypatch.setattr("time.monotonic", lambda: now)
    it, news = Attendance(), []
    for workers, now in ((0, 0.0), (0, 19.0), (0, 21.0), (0, 50.0), (1, 51.0), (0, 60.0), (0, 79.0), (0, 81.0)):
        news.append(it.news(workers))
    said = ["there has been no worker for 20 seconds; the run waits for one"]
    assert news == [[], [], said, [], [], [], [], said]


def test_standing() -> None:
    it = Attendance()
    it.news(4)
    assert it.standing(1) == "4 workers, 1 fault"
    come_and_go(it, ONE, 1, 1)
    it.news(1)
    assert it.standing(20) == "1 worker, 20 faults, 1 ended early"

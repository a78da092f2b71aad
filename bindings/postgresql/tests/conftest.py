"""The server of the tests, and databases in it."""
from __future__ import annotations

import itertools
from typing import Any, Callable, Iterator

import pytest

from installation import Installation


@pytest.fixture(scope="session")
def installation() -> Iterator[Installation]:
    """A running server with the extension's files."""
    it = Installation()
    try:
        it.copy()
        made = it.make("install")
        assert made.returncode == 0, made.stdout + made.stderr
        it.initialize(it.data)
        it.start()
        yield it
    finally:
        it.remove()


_numbers = itertools.count()


@pytest.fixture
def connect(installation: Installation) -> Iterator[Callable[[], Any]]:
    """Connects to an empty database of the test's own, which has the extension."""
    name = f"test_{next(_numbers)}"
    installation.make_database(name)
    connections = [installation.connect(name)]
    connections[0].cursor().execute("CREATE EXTENSION mvtgate")

    def connected() -> Any:
        connections.append(installation.connect(name))
        return connections[-1]

    yield connected
    for it in connections:
        it.close()


@pytest.fixture
def cursor(connect: Callable[[], Any]) -> Any:
    """A cursor of such a database."""
    return connect().cursor()

"""The extension of the tests, and databases that have it."""
from __future__ import annotations

import pathlib
import sqlite3
import subprocess
from typing import Any, Callable, Iterator

import pytest

from samples import TOP

FOLDER = TOP / "bindings/sqlite"


def make(out: pathlib.Path, *words: str) -> pathlib.Path:
    """Builds the extension into a folder, with warnings as errors."""
    subprocess.run(["make", "-s", "-C", FOLDER, f"OUT={out}", "CFLAGS=-O2 -g -Werror", *words], check=True)
    return out / "mvtgate.so"


@pytest.fixture(scope="session")
def extension(tmp_path_factory: pytest.TempPathFactory) -> pathlib.Path:
    return make(tmp_path_factory.mktemp("extension"))


@pytest.fixture
def connect(extension: pathlib.Path) -> Iterator[Callable[..., Any]]:
    """Connects to a database, one in memory unless a path is given, which has the extension."""
    connections = []

    def connected(path: str = ":memory:") -> Any:
        connections.append(sqlite3.connect(path))
        connections[-1].enable_load_extension(True)
        connections[-1].load_extension(str(extension.with_suffix("")))
        return connections[-1]

    yield connected
    for it in connections:
        it.close()


@pytest.fixture
def database(connect: Callable[..., Any]) -> Any:
    return connect()

"""The extension by itself: memory that it is refused, memory that it leaves behind or reads where there is
none, and what it is made of."""
from __future__ import annotations

import os
import pathlib
import re
import shutil
import subprocess
import sys
import sysconfig
from typing import Any, List

import pytest

from calls import HERE, compiled, other_pythons
from conftest import TOP
from mvtgate import _library

extension = pytest.importorskip("mvtgate._native")
TILES = [str(TOP / f"tiles/{name}.mvt") for name in ("crossing_edges", "point", "empty", "truncated")]
LIBRARY = _library._candidates()[0]


@pytest.fixture(scope="module")
def stand_in(tmp_path_factory: pytest.TempPathFactory) -> str:
    return str(compiled(tmp_path_factory.mktemp("stand_in") / "stand_in.so", HERE / "stand_in.c"))


def run(*words: str, **env: str) -> str:
    """What a process says that ends well and has nothing to complain of."""
    done = subprocess.run(words, env={**os.environ, **env}, capture_output=True, text=True)
    assert (done.returncode, done.stderr) == (0, ""), done.stdout[-2000:] + done.stderr[-3000:]
    return done.stdout


def test_requests_that_are_refused(tmp_path: pathlib.Path, stand_in: str) -> None:
    refusing = str(compiled(tmp_path / "refusing.so", HERE / "refusing.c", "-fno-builtin"))
    said = run(sys.executable, str(HERE / "refused.py"), LIBRARY, stand_in, *TILES, LD_PRELOAD=refusing, PYTHONMALLOC="malloc")
    told = re.fullmatch(r"(\d+) requests were refused\n", said)
    assert told and int(told[1]) > 100 * len(TILES)


@pytest.mark.skipif(shutil.which("valgrind") is None, reason="valgrind is missing")
def test_under_valgrind(stand_in: str) -> None:
    words = ["valgrind", "--quiet", "--error-exitcode=9", sys.executable, str(HERE / "every_call.py"), LIBRARY, stand_in, *TILES]
    assert run(*words, PYTHONMALLOC="malloc") == "every call was made\n"


@pytest.mark.skipif(shutil.which("nm") is None, reason="Debian's binutils are missing")
def test_names() -> None:
    """It gives out one name."""
    said = run("nm", "--dynamic", "--defined-only", extension.__file__)
    assert [line.split()[-1] for line in said.splitlines()] == ["PyInit__native"]


def headers() -> List[pathlib.Path]:
    """Those of this Python, and of each that pyenv has, from 3.10 on."""
    return [pathlib.Path(sysconfig.get_path("include")), *(it.parent.parent / f"include/python{it.name[6:]}" for it in other_pythons())]


@pytest.mark.parametrize("folder", headers(), ids=lambda it: str(it.name))
def test_no_warnings(folder: pathlib.Path, tmp_path: pathlib.Path) -> None:
    sources = sorted((TOP / "bindings/python/native").glob("*.c"))
    strict = ["-Wall", "-Wextra", "-Wno-missing-field-initializers", "-Werror"]
    run("gcc", "-std=gnu99", "-O2", *strict, "-I", str(folder), "-I", str(TOP / "bindings/c"), "-fsyntax-only", *map(str, sources))


def test_words_of_other_types() -> None:
    calls: Any = extension.Library(LIBRARY)
    for name, words in {"check": (1.5, b"", False), "faults": (None, b"", False), "confirm": (0, b"", "text"), "head": (b"", "1")}.items():
        with pytest.raises(TypeError):
            getattr(calls, name)(*words)
    with pytest.raises(OverflowError):
        calls.check(-1, b"", False)

    class Undecided:
        def __bool__(self) -> bool:
            raise ZeroDivisionError

    for name in ("check", "faults", "mend"):
        with pytest.raises(ZeroDivisionError):
            getattr(calls, name)(0, b"", Undecided())

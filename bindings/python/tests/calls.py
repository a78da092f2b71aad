"""What the tests of the two ways to call the library share: the ways, and a library that stands in the place of the real one."""
from __future__ import annotations

import ctypes
import importlib
import os
import pathlib
import subprocess
from typing import Any, Callable, Dict, List

import pytest

from conftest import TOP
from mvtgate._library import Calls

HERE = pathlib.Path(__file__).resolve().parent
WAYS = ("_native", "_by_ctypes")
STRICT = ["-std=gnu99", "-O1", "-Wall", "-Wextra", "-Werror", "-shared", "-fPIC"]


def compiled(made: pathlib.Path, source: pathlib.Path, *flags: str) -> pathlib.Path:
    """A library of one C file."""
    subprocess.run(["gcc", *STRICT, *flags, "-I", str(TOP / "bindings/c"), "-o", str(made), str(source)], check=True)
    return made


def other_pythons() -> List[pathlib.Path]:
    """One of each version from 3.10 on that pyenv has, where it is there."""
    root = pathlib.Path(os.environ.get("PYENV_ROOT", pathlib.Path.home() / ".pyenv"))
    found = {it.name: it for it in sorted(root.glob("versions/3.*/bin/python3.[1-9][0-9]"))}
    return [found[name] for name in sorted(found)]


def loader(way: str) -> Callable[[str], Calls]:
    """What loads a library in this way. The extension may not have been compiled."""
    found: Any = pytest.importorskip("mvtgate._native") if way == "_native" else importlib.import_module(f"mvtgate.{way}")
    load: Callable[[str], Calls] = found.Library
    return load


class StandIn:
    """The library of stand_in.c: its answers are set, and what it was given is read. It is one for each way that has loaded it."""

    def __init__(self, path: pathlib.Path) -> None:
        self.path = path
        self._variables = ctypes.CDLL(str(path))
        self._kinds: Dict[str, Any] = {
            **dict.fromkeys(("answer", "is_closed", "is_inside"), ctypes.c_int),
            **dict.fromkeys(("wanted", "wanted_out", "calls", "bytes", "length"), ctypes.c_size_t),
            **dict.fromkeys(("profile", "flag"), ctypes.c_uint32),
            **dict.fromkeys(("rooms", "out_rooms"), ctypes.c_size_t * 8),
            "filling": ctypes.c_ubyte,
        }

    def _variable(self, name: str) -> Any:
        return self._kinds[name].in_dll(self._variables, name)

    def set(self, **values: int) -> None:
        for name, value in values.items():
            self._variable(name).value = value

    def __getitem__(self, name: str) -> int:
        value: int = self._variable(name).value
        return value

    def rooms(self, name: str = "rooms") -> Any:
        """The rooms of the calls since `begin`."""
        return list(self._variable(name)[: self["calls"]])

    def begin(self) -> None:
        """As it was loaded."""
        self.set(**{name: 0 for name, kind in self._kinds.items() if not hasattr(kind, "_length_")})
        self.set(filling=ord("x"))

"""A wheel with the library in it, in a fresh environment where no toolchain is found."""
from __future__ import annotations

import importlib.util
import os
import pathlib
import shutil
import subprocess
import sys
import zipfile
from typing import Any, List

import pytest

from calls import HERE, other_pythons
from conftest import TOP, VERSION
from mvtgate import _library

WEB = pathlib.Path(os.environ.get("MVTGATE_WEB", TOP / "web/out"))

pytestmark = pytest.mark.skipif(
    not all(map(importlib.util.find_spec, ("build", "wheel", "setuptools", "ensurepip"))),
    reason="Debian's python3-build, python3-wheel, python3-setuptools or python3-venv is missing",
)


def copy_sources(room: pathlib.Path) -> None:
    """What a wheel is built from, so that the checkout stays as it is."""
    shutil.copy(TOP / "VERSION", room)
    shutil.copytree(TOP / "bindings", room / "bindings", symlinks=True, ignore=shutil.ignore_patterns("build", "dist", "*.egg-info", "__pycache__", "*.abi3.so"))


def build(room: pathlib.Path, **more: str) -> pathlib.Path:
    """The wheel of a copy of the sources, with the library that these tests run with."""
    env = {**os.environ, "MVTGATE_LIBRARY": str(pathlib.Path(_library._candidates()[0]).resolve()), "MVTGATE_WEB": str(WEB), **more}
    command = [sys.executable, "-m", "build", "--wheel", "--no-isolation", "--outdir", str(room), str(room / "bindings/python")]
    run = subprocess.run(command, env=env, capture_output=True, text=True)
    assert run.returncode == 0, run.stdout + run.stderr
    [path] = room.glob("*.whl")
    return path


@pytest.fixture(scope="module")
def wheel(tmp_path_factory: pytest.TempPathFactory) -> pathlib.Path:
    """Built in a copy, with the library that these tests run with."""
    room = tmp_path_factory.mktemp("wheel")
    copy_sources(room)
    return build(room)


def run_alone(python: pathlib.Path, *words: Any, where: pathlib.Path) -> "subprocess.CompletedProcess[str]":
    """Python with nothing of this environment: no path of programs, no MVTGATE_LIBRARY, no PYTHONPATH."""
    return subprocess.run([python, "-I", *map(str, words)], env={"PATH": ""}, cwd=where, capture_output=True, text=True)


def test_content(wheel: pathlib.Path) -> None:
    assert wheel.name == f"mvtgate-{VERSION}-cp310-abi3-manylinux_2_34_x86_64.whl"
    with zipfile.ZipFile(wheel) as packed:
        names = {it for it in packed.namelist() if ".dist-info/" not in it}
        source = TOP / "bindings/python/src"
        modules = {str(it.relative_to(source)) for ending in ("*.py", "*.pyi", "*.jinja") for it in (source / "mvtgate").rglob(ending)}
        report = {f"mvtgate/planet/report/report.{it}" for it in ("css", "js")}
        others = {f"mvtgate/{it}" for it in ("faults.json", "py.typed", "libmvtgate.so", "_native.abi3.so", "planet/page.html")}
        assert names == modules | report | others
        assert packed.read("mvtgate/faults.json") == (TOP / "bindings/faults.json").read_bytes()
        assert packed.read("mvtgate/planet/page.html") == (WEB / "index.html").read_bytes()


def test_in_a_fresh_environment(wheel: pathlib.Path, tmp_path: pathlib.Path) -> None:
    subprocess.run([sys.executable, "-m", "venv", tmp_path / "venv"], check=True, capture_output=True)
    python = tmp_path / "venv/bin/python3"
    installed = run_alone(python, "-m", "pip", "install", "--no-index", "--no-deps", wheel, where=tmp_path)
    assert installed.returncode == 0, installed.stderr
    for profile, of_profile in (("polygon", "check"), ("feature", "check_feature")):
        for tile in (TOP / "tiles").glob("*.mvt"):
            shutil.copy(tile, tmp_path)
        words = ["--json", "--confirm", "--allow-empty", "--profile", profile, str(tmp_path)]
        said = run_alone(python, "-m", "mvtgate", "check", *words, where=tmp_path)
        assert said.returncode == 1, said.stderr
        assert said.stderr.splitlines()[-1].startswith(f"{len(list(tmp_path.glob('*.mvt')))} tiles: ")
        # (the command that the wheel installs says the same)
        command = subprocess.run([tmp_path / "venv/bin/mvtgate-check", "--jobs", "2", *words], env={"PATH": ""}, cwd=tmp_path, capture_output=True, text=True)
        assert (command.returncode, command.stdout, command.stderr) == (1, said.stdout, said.stderr)
        expected = {it.stem for it in (TOP / "tiles/expected").glob(f"*.{of_profile}") if '"code"' in it.read_text()}
        assert all(f"/{it}.mvt" in said.stdout for it in expected)
    loaded = run_alone(python, "-c", MAPS, where=tmp_path)
    expected = {str(next((tmp_path / "venv").rglob(it)).resolve()) for it in ("libmvtgate.so", "_native.abi3.so")}
    assert loaded.returncode == 0 and set(loaded.stdout.split()) == expected


# the files of this package, and of ctypes, that a process has loaded
MAPS = """
import mvtgate
mvtgate.check(b"")
print(*{it.split()[-1] for it in open("/proc/self/maps") if any(name in it for name in ("mvtgate", "ctypes"))})
"""
# every sample's verdict, by the extension
SAMPLES = """
import pathlib, sys, mvtgate
assert type(mvtgate._library.calls).__module__ == "mvtgate._native"
folder = pathlib.Path(sys.argv[1])
for expected in folder.glob("expected/*.check"):
    tile = (folder / f"{expected.stem}.mvt").read_bytes()
    fault = mvtgate.check(tile)
    assert ('{"ok":true}' if fault is None else fault.text) in expected.read_text().splitlines(), expected
    assert fault is None or mvtgate.confirm(bytearray(tile), fault), expected
print("all are right")
"""


@pytest.mark.parametrize("other", [pathlib.Path(sys.executable), *other_pythons()], ids=lambda it: str(it.name))
def test_in_each_python(wheel: pathlib.Path, tmp_path: pathlib.Path, other: pathlib.Path) -> None:
    """One wheel serves each version, and several interpreters of a process, from 3.12 on with a lock each."""
    subprocess.run([other, "-m", "venv", tmp_path / "venv"], check=True, capture_output=True)
    python = tmp_path / "venv/bin/python3"
    installed = run_alone(python, "-m", "pip", "install", "--no-index", "--no-deps", wheel, where=tmp_path)
    assert installed.returncode == 0, installed.stderr
    ran = run_alone(python, "-c", SAMPLES, TOP / "tiles", where=tmp_path)
    assert (ran.returncode, ran.stdout, ran.stderr) == (0, "all are right\n", "")
    text = (TOP / "tiles/expected/crossing_edges.check").read_text().strip()
    ran = run_alone(python, HERE / "interpreters.py", TOP / "tiles/crossing_edges.mvt", text, where=tmp_path)
    assert (ran.returncode, ran.stdout, ran.stderr) == (0, "12 interpreters\n", "")


def test_without_a_compiler(tmp_path: pathlib.Path) -> None:
    """A wheel is built all the same, for any Python 3, which calls the library by ctypes."""
    copy_sources(tmp_path)
    built = build(tmp_path, CC="/nowhere/cc")
    assert built.name == f"mvtgate-{VERSION}-py3-none-manylinux_2_34_x86_64.whl"
    with zipfile.ZipFile(built) as packed:
        assert not any("_native" in it and it.endswith(".so") for it in packed.namelist())
        packed.extractall(tmp_path / "unpacked")
    said = subprocess.run([sys.executable, "-c", MAPS], env={"PYTHONPATH": str(tmp_path / "unpacked")}, cwd=tmp_path, capture_output=True, text=True)
    assert said.returncode == 0 and "libmvtgate.so" in said.stdout and "_ctypes" in said.stdout, said.stderr


@pytest.mark.parametrize("kind", [["--sdist"], []], ids=["sdist", "both"])
def test_there_is_no_source_distribution(kind: List[str], tmp_path: pathlib.Path) -> None:
    """One would lack the library. Who asks for it, as `python3 -m build` does by itself, is told what to make."""
    copy_sources(tmp_path)
    words = [sys.executable, "-m", "build", *kind, "--no-isolation", "--outdir", str(tmp_path / "out"), str(tmp_path / "bindings/python")]
    run = subprocess.run(words, capture_output=True, text=True)
    assert run.returncode != 0 and "there is no source distribution; make a wheel: python3 -m build --wheel" in run.stdout + run.stderr
    assert list(tmp_path.glob("out/*")) == []


def test_build_without_the_library(tmp_path: pathlib.Path) -> None:
    copy_sources(tmp_path)
    command = [sys.executable, "-m", "build", "--wheel", "--no-isolation", str(tmp_path / "bindings/python")]
    run = subprocess.run(command, env={**os.environ, "MVTGATE_LIBRARY": "/nowhere.so"}, capture_output=True, text=True)
    assert run.returncode != 0 and "there is no /nowhere.so" in run.stdout + run.stderr

"""The program of a wheel, as who installs it has it."""
from __future__ import annotations

import pathlib
import subprocess
import sys

from planet.helpers.planets import Planet
from planet.helpers.runs import LONG, faults_text
from test_wheel import WEB, pytestmark, wheel

__all__ = ["pytestmark", "wheel"]


def test_program_of_a_wheel(wheel: pathlib.Path, planet: Planet, tmp_path: pathlib.Path) -> None:
    # (with Debian's packages, since no others can be fetched everywhere)
    subprocess.run([sys.executable, "-m", "venv", "--system-site-packages", tmp_path / "venv"], check=True, capture_output=True)
    programs, nothing = tmp_path / "venv/bin", dict[str, str]()
    install = [str(programs / "python3"), "-m", "pip", "install", "--no-index", "--no-deps", str(wheel)]
    subprocess.run(install, env=nothing, check=True, capture_output=True)
    words = [str(programs / "mvtgate-planet"), str(planet.path), "--output", "out", "--workers", "2"]
    run = subprocess.run(words, env=nothing, cwd=tmp_path, capture_output=True, text=True, timeout=LONG)
    assert run.returncode == 1 and "Traceback" not in run.stderr, run.stderr
    assert faults_text(tmp_path / "out") == planet.text
    assert (tmp_path / "out/page.html").read_bytes() == (WEB / "index.html").read_bytes()
    assert f"{len(planet.lines)} of 1,024 tiles are not valid" in (tmp_path / "out/report.html").read_text()

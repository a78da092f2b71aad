"""Runs the tests of this folder by pytest, and writes 'N passed, M failed' as the last line: run.py ALREADY_PASSED ALREADY_FAILED [WORD..]"""
from __future__ import annotations

import pathlib
import signal
import subprocess
import sys
from typing import NoReturn

import pytest

LEFT_OUT = pathlib.Path(__file__).resolve().parents[2] / "tests/left_out"


class Counts:
    """A plugin of pytest that counts. What fails before or after a test counts as a failure too."""

    def __init__(self, passed: int, failed: int) -> None:
        self.passed, self.failed, self.skipped = passed, failed, 0

    def pytest_runtest_logreport(self, report: pytest.TestReport) -> None:
        self.passed += report.when == "call" and report.passed
        self.failed += report.failed
        self.skipped += report.skipped


def interrupted(number: int, _: object) -> NoReturn:
    """As Ctrl-C does, so that what runs is ended and taken away."""
    raise KeyboardInterrupt(signal.Signals(number).name)


def main() -> int:
    """Runs the tests and returns the exit status."""
    for it in (signal.SIGINT, signal.SIGTERM, signal.SIGHUP):
        signal.signal(it, interrupted)
    counts = Counts(*map(int, sys.argv[1:3]))
    words = ["-q", "-rs", "-p", "no:cacheprovider", *sys.argv[3:], str(pathlib.Path(__file__).parent)]
    status = pytest.main(words, plugins=[counts])
    if status != pytest.ExitCode.OK and not counts.failed:
        # (an interruption, or pytest itself)
        counts.failed = 1
    if counts.skipped:
        said = f"{counts.skipped} tests, for the reasons above"
        counts.failed += subprocess.run([LEFT_OUT, "proxy:skipped", said]).returncode
    print(f"{counts.passed} passed, {counts.failed} failed")
    return int(counts.failed != 0 or counts.passed == 0)


if __name__ == "__main__":
    sys.exit(main())

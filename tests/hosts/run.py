#!/usr/bin/env python3
"""Runs the cases of tests/planet_hosts: run.py [--long] [NAME..]. tests/planet_hosts says what for."""
from __future__ import annotations

import argparse
import os
import pathlib
import shutil
import signal
import subprocess
import tempfile
import time
import traceback
from typing import Any, Dict, List

import cases
import network
import runs
import tiles

# so many tiles take one worker some 10 seconds, where it is slow
COUNT = 2000
HOSTS = ("first", "second", "third")
SHIM = tiles.TOP / "bindings/python/tests/planet/helpers/shim.c"


def compiled(folder: pathlib.Path) -> runs.Libraries:
    """The libraries of the workers."""
    words = ["gcc", "-std=gnu11", "-O1", "-shared", "-fPIC", "-o"]
    slow, other, source = folder / "slow.so", folder / "other.so", folder / "other.c"
    renamed = f'#define mvtgate_version version_of_shim\n#include "{SHIM}"\n#undef mvtgate_version\n'
    source.write_text(f"{renamed}uint32_t mvtgate_version(void) {{ return 90000; }}\n")
    for made, of in ((slow, SHIM), (other, source)):
        subprocess.run([*words, str(made), str(of), "-ldl"], check=True)
    return runs.Libraries(os.environ["MVTGATE_LIBRARY"], str(slow), str(other))


def places_of(folder: pathlib.Path) -> Dict[str, Dict[str, str]]:
    """The mounts of each host: which folder stands at a path where each has another one."""
    mounts: Dict[str, Dict[str, str]] = {it: {} for it in HOSTS}
    for place in ("copies", "different", "missing"):
        (folder / place).mkdir()
        for host in HOSTS:
            own = folder / f"{place}-{host}"
            own.mkdir()
            mounts[host][str(folder / place)] = str(own)
    return mounts


def fill(folder: pathlib.Path) -> List[Dict[str, Any]]:
    """Makes the tiles of all hosts, and returns the lines that faults.jsonl has to have."""
    (folder / "shared").mkdir()
    made = folder / "shared/tiles.mbtiles"
    lines = tiles.make(made, COUNT)
    for number, host in enumerate(HOSTS):
        for place in ("copies", "different", "missing"):
            copy = folder / f"{place}-{host}/tiles.mbtiles"
            shutil.copy(made, copy)
            # (each copy has a time of its own)
            os.utime(copy, (1_700_000_000 + number, 1_700_000_000 + number))
    tiles.change(folder / "different-second/tiles.mbtiles")
    (folder / "missing-second/tiles.mbtiles").unlink()
    return lines


def undisturbed(folder: pathlib.Path) -> str:
    """faults.jsonl of a run on this machine alone."""
    output = folder / "undisturbed"
    words = [runs.PYTHON, "-m", "mvtgate.planet", str(folder / "shared/tiles.mbtiles"), "--workers", "2", "--output", str(output)]
    done = subprocess.run(words, env={**os.environ, "PYTHONPATH": runs.PACKAGE}, stderr=subprocess.PIPE, encoding="utf-8")
    assert done.returncode == 1, done.stderr
    return runs.Run(output, 1, done.stderr, 0).faults()


def passes(case: cases.Case, bench: cases.Bench) -> bool:
    """Runs one case and says what came of it."""
    began = time.monotonic()
    try:
        case(bench)
    except runs.Failed as failure:
        print(f"FAILED {case.__name__}: {failure}", flush=True)
        return False
    except Exception:
        print(f"FAILED {case.__name__}: {traceback.format_exc()}", flush=True)
        return False
    print(f"passed {case.__name__}: {case.__doc__} ({time.monotonic() - began:.0f} s)", flush=True)
    return True


def interrupt(*_: object) -> None:
    raise KeyboardInterrupt


def results_of(chosen: List[cases.Case], folder: pathlib.Path) -> List[bool]:
    """Whether each of the cases passed, and whether all that was made has been removed."""
    libraries, mounts = compiled(folder), places_of(folder)
    lines = fill(folder)
    expected = cases.Expected(COUNT, lines, undisturbed(folder))
    results = []
    for case in chosen:
        # (hosts of its own, so that no case finds what another one left)
        with network.Network(mounts) as it:
            results.append(passes(case, cases.Bench(folder, it.hosts, libraries, expected)))
    left = network.namespaces()
    if left:
        print(f"FAILED: left behind: {left}")
    return [*results, not left]


def main() -> int:
    reader = argparse.ArgumentParser()
    reader.add_argument("--long", action="store_true")
    reader.add_argument("name", nargs="*")
    said = reader.parse_args()
    for it in (signal.SIGINT, signal.SIGTERM):
        signal.signal(it, interrupt)
    of_names = [it for it in cases.CASES + cases.LONG_CASES if it.__name__ in said.name]
    with tempfile.TemporaryDirectory(prefix="mvtgate-hosts-") as folder:
        results = results_of(of_names or cases.CASES + cases.LONG_CASES * said.long, pathlib.Path(folder))
    if not said.long and not said.name:
        for case in cases.LONG_CASES:
            print(f"left out: {case.__name__}, which takes more than a minute (--long)")
    print(f"{sum(results)} passed, {len(results) - sum(results)} failed")
    return 0 if all(results) else 1


if __name__ == "__main__":
    try:
        raise SystemExit(main())
    except KeyboardInterrupt:
        raise SystemExit(130) from None

"""The extension's own C under the sanitizers and under valgrind, and memory that is refused."""
from __future__ import annotations

import gzip
import pathlib
import re
import subprocess
from typing import Dict, Iterator, List, Tuple

import pytest

from conftest import FOLDER, make
from samples import SAMPLES, TOP, shapes

WAYS: Dict[str, Tuple[List[str], List[str]]] = {
    "sanitizers": (["-fsanitize=address,undefined", "-fno-sanitize-recover=all"], []),
    "valgrind": ([], ["valgrind", "--quiet", "--error-exitcode=9", "--leak-check=full"]),
}


@pytest.mark.parametrize("way", WAYS)
def test_requests_that_are_refused(tmp_path: pathlib.Path, way: str) -> None:
    flags, before = WAYS[way]
    extension = make(tmp_path, f"LDFLAGS={' '.join(flags)}", f"CFLAGS=-O1 -g -Werror {' '.join(flags)}")
    program = tmp_path / "refused"
    strict = ["-std=gnu99", "-O1", "-g", "-Wall", "-Wextra", "-Werror"]
    subprocess.run(["gcc", *strict, *flags, FOLDER / "tests/refused.c", "-o", program, "-lsqlite3"], check=True)
    files = [TOP / f"tiles/{name}.mvt" for name in ("crossing_edges", "point", "empty", "truncated")]
    run = subprocess.run([*before, program, extension.with_suffix(""), *files], capture_output=True, text=True)
    told = re.fullmatch(r"(\d+) requests were refused\n", run.stdout)
    assert run.returncode == 0 and run.stderr == "" and told, run.stdout[-2000:] + run.stderr[-3000:]
    assert int(told[1]) > 20 * len(files)


def statements() -> Iterator[str]:
    yield "CREATE TABLE samples (tile BLOB)"
    for at, it in enumerate(SAMPLES):
        yield f"INSERT INTO samples VALUES (x'{(gzip.compress(it.tile) if at % 2 else it.tile).hex()}')"
    for profile in ("polygon", "feature"):
        yield f"SELECT count(mvt_fault(tile, '{profile}')), count(mvt_explain(mvt_fault(tile, '{profile}'))), sum(mvt_confirm(tile, mvt_fault(tile, '{profile}'), '{profile}')) FROM samples"
        yield f"SELECT count(mvt_dump(tile)), count(mvt_mend_report(tile, '{profile}', 1)) FROM samples, mvt_faults(tile, '{profile}')"
        yield f"SELECT count(mvt_mend(tile, '{profile}')) FROM samples WHERE mvt_mend_report(tile, '{profile}') ->> 'ok'"


def test_the_program_sqlite3_under_valgrind(extension: pathlib.Path) -> None:
    valgrind = ["valgrind", "--quiet", "--error-exitcode=9", "--leak-check=full"]
    script = f".load {extension.with_suffix('')}\n" + "".join(f"{it};\n" for it in statements())
    run = subprocess.run([*valgrind, "sqlite3", ":memory:"], input=script, capture_output=True, text=True)
    assert run.returncode == 0 and run.stderr == "", run.stderr[-3000:]
    lines = run.stdout.splitlines()
    assert len(lines) == 6
    for line, profile in zip(lines[::3], ("polygon", "feature")):
        assert line == "|".join(3 * [str(sum(not it.is_valid(profile) for it in SAMPLES))])


def test_memory_that_the_library_is_refused(extension: pathlib.Path, tmp_path: pathlib.Path) -> None:
    tile = tmp_path / "zigzag.mvt"
    tile.write_bytes(shapes.zigzag(8 << 20))
    # (enough for the program and the tile, and not for what the library asks for)
    limited = ["prlimit", f"--as={80 << 20}", "sqlite3", ":memory:", f".load {extension.with_suffix('')}"]
    for call in ("mvt_is_valid({})", "mvt_fault({})", "mvt_mend({})", "mvt_dump({})"):
        query = f"SELECT typeof({call.format(f'readfile({str(tile)!r})')})"
        run = subprocess.run([*limited, "SELECT mvt_is_valid(x'')", query], capture_output=True, text=True)
        assert run.stdout == "1\n" and run.returncode != 0 and "out of memory" in run.stderr, (call, run.stdout, run.stderr)

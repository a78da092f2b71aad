"""The extension's own C under valgrind, in a server of one user."""
from __future__ import annotations

import subprocess
import xml.etree.ElementTree
from typing import Iterator, List, Tuple

from installation import Installation
from samples import PROFILES, SAMPLES

# each is answered, or refused by an error, which the server survives
REFUSED = [
    "SELECT mvt_fault('', 'none')",
    "SELECT mvt_explain('{}')",
    "SELECT mvt_explain('{\"code\": 201, \"layer\": [[{}]]}')",
    "SELECT mvt_mend('\\x00')",
    "SELECT mvt_faults('\\x00', 'none')",
    "SET mvtgate.longest_tile = 1; SELECT mvt_dump('\\x0801')",
]


def statements() -> Iterator[str]:
    yield "CREATE EXTENSION mvtgate"
    yield "CREATE TABLE samples (name text, tile bytea)"
    yield "INSERT INTO samples VALUES " + ", ".join(f"('{it.name}', '\\x{it.tile.hex()}')" for it in SAMPLES)
    # (values of all lengths in the row, and one outside of it)
    yield "INSERT INTO samples SELECT 'long', string_agg('\\x3a0161'::bytea, '') FROM generate_series(1, 100000)"
    for profile in PROFILES:
        by_profile = f"(tile, '{profile}')"
        yield f"SELECT '{profile}', count(*) AS tiles, count(mvt_fault{by_profile}) AS faulty FROM samples"
        yield f"SELECT '{profile}', count(mvt_explain(fault)) AS explained FROM samples, mvt_faults{by_profile} AS fault"
        yield f"SELECT '{profile}', bool_and(mvt_confirm(tile, mvt_fault{by_profile}, '{profile}')) AS confirmed FROM samples"
        yield f"SELECT '{profile}', count(mvt_mend_report(tile, '{profile}', true)) AS reports FROM samples"
        yield f"SELECT '{profile}', count(mvt_mend{by_profile}) AS mended FROM samples WHERE NOT mvt_mend_report{by_profile} ? 'code'"
    yield "SELECT count(mvt_dump(tile)) AS dumps, bool_and(mvt_is_valid(tile)) AS are_valid FROM samples"
    yield from REFUSED


def errors_of_ours(path: str) -> Tuple[List[str], bool]:
    """What valgrind found in the extension, and whether it came to its end."""
    root = xml.etree.ElementTree.parse(path).getroot()
    found = [
        xml.etree.ElementTree.tostring(it, "unicode")
        for it in root.iter("error")
        if any((obj.text or "").endswith("/mvtgate.so") for obj in it.iter("obj"))
    ]
    return found, [it.findtext("state") for it in root.iter("status")][-1] == "FINISHED"


def test_valgrind(installation: Installation) -> None:
    data, report = str(installation.folder / "single"), str(installation.folder / "valgrind.xml")
    installation.initialize(data)
    valgrind = ["valgrind", "--leak-check=no", "--error-limit=no", "--vgdb=no", "--xml=yes", f"--xml-file={report}"]
    run = subprocess.run(
        [*installation.as_whom, *valgrind, str(installation.programs / "postgres"), "--single", "-j", "-D", data, "postgres"],
        input="".join(f"{it};\n\n" for it in statements()),
        capture_output=True,
        text=True,
        cwd=installation.folder,
    )
    assert run.returncode == 0, run.stderr[-3000:]
    for profile in PROFILES:
        faulty = sum(not it.is_valid(profile) for it in SAMPLES)
        assert f'tiles = "{len(SAMPLES) + 1}"' in run.stdout and f'faulty = "{faulty}"' in run.stdout, run.stdout[-3000:]
    assert run.stdout.count('confirmed = "t"') == len(PROFILES)
    assert f'dumps = "{len(SAMPLES) + 1}"' in run.stdout
    assert run.stderr.count("ERROR:") == len(REFUSED), run.stderr[-3000:]
    found, is_ended = errors_of_ours(report)
    assert is_ended and found == []

"""Tiles a second of the extension for SQLite and of mvtgate-planet, on one MBTiles file: sqlite_times.py [--tiles N] [--rounds N] FOLDER.
bench/sqlite runs it, and bench/README.md says what is measured and how."""
from __future__ import annotations

import argparse
import importlib.util
import os
import pathlib
import statistics
import sys
import tempfile
from typing import Dict, List

TOP = pathlib.Path(__file__).resolve().parents[2]
sys.path.insert(0, str(TOP / "bench/makers"))

import mvtgate
import planet_tiles

# (the name `planet` is that of a package, which planet_tiles reads)
found = importlib.util.spec_from_file_location("planet_of_bench", TOP / "bench/programs/planet.py")
assert found and found.loader
planet = importlib.util.module_from_spec(found)
sys.modules[found.name] = planet
found.loader.exec_module(planet)

EXTENSION = TOP / "bindings/sqlite/out/mvtgate"
# (in the words of planet_plain.py)
QUERY = """SELECT (SELECT count(*) FROM tiles) || ' tiles, ' || count(*) || ' with a fault'
FROM tiles WHERE mvt_fault(tile_data) IS NOT NULL"""


def ways(file: str, output: str) -> Dict[str, List[str]]:
    """The commands that judge all tiles of a file. The first is what the others are held against."""
    of_planet = {
        "one process, without Dask": planet.words_of(0, file, output),
        "1 worker": planet.words_of(1, file, output),
        "4 workers": planet.words_of(4, file, output),
    }
    return {"SQLite": ["sqlite3", "-readonly", file, f".load {EXTENSION}", QUERY], **of_planet}


def table(kind: planet.Kind, count: int, rounds: int, folder: str) -> None:
    """Measures one kind of tiles, and prints medians of all rounds and of their quotients."""
    files = {number: f"{folder}/{number}.mbtiles" for number in (1, count)}
    sizes = {number: planet_tiles.write(file, kind.tiles, number) for number, file in files.items()}
    taken: Dict[str, List[planet.Taken]] = {}
    for _ in range(rounds):
        for name in ways("", ""):
            whole, start = (planet.run(ways(file, f"{folder}/output")[name], (number, kind.faulty(number))) for number, file in reversed(list(files.items())))
            # (the time of a run on one tile is taken off)
            taken.setdefault(name, []).append(planet.Taken(whole.seconds - start.seconds, whole.processor - start.processor))
    print(f"\n{count:,} tiles, {kind.name}: {kind.faulty(count):,} with a fault, {sizes[count] / planet.MIB:,.0f} MiB\n")
    print("| How | s | tiles a second | / SQLite | processor, µs a tile |\n|---|---|---|---|---|")
    for name, runs in taken.items():
        quotient = statistics.median(other.seconds / one.seconds for one, other in zip(runs, taken["SQLite"]))
        seconds, processor = (statistics.median(column) for column in zip(*runs))
        print(f"| {name} | {seconds:.1f} | {count / seconds:,.0f} | {quotient:.2f} | {processor / count * 1e6:.0f} |", flush=True)


def main() -> None:
    reader = argparse.ArgumentParser()
    reader.add_argument("--tiles", type=int, default=100_000)
    reader.add_argument("--rounds", type=int, default=3)
    reader.add_argument("folder")
    said = reader.parse_args()
    tiles = planet_tiles.tiles_of(said.folder)
    valid = [it for it in tiles if mvtgate.check(it) is None]
    with tempfile.TemporaryDirectory(prefix="mvtgate-sqlite-") as folder:
        for kind in (planet.Kind(f"all {len(tiles)} of the folder", tiles), planet.Kind(f"the {len(valid)} of them that are valid", valid)):
            table(kind, said.tiles, said.rounds, folder)
    print(f"\nload at the end: {os.getloadavg()[0]:.1f}")


if __name__ == "__main__":
    main()

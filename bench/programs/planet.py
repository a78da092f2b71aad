"""Tiles a second and memory of mvtgate-planet: planet.py [--pmtiles] [--tiles N] [--few N] [--many N] [--rounds N] FOLDER. bench/planet runs
it, and bench/README.md says what is measured and how."""
from __future__ import annotations

import argparse
import pathlib
import re
import resource
import statistics
import subprocess
import sys
import tempfile
import time
from typing import Dict, Iterator, List, NamedTuple, Sequence, Tuple

HERE = pathlib.Path(__file__).resolve().parent
sys.path.insert(0, str(HERE.parent / "makers"))

import mvtgate
import planet_tiles

MIB = 1 << 20
WORKERS = (1, 2, 4)
# computed, not run: so many tiles on so many machines, which have as many processors as the most workers above
PLANET, MACHINES = 10**8, (1, 4, 16)
# of the small tiles whose run is measured for its memory
TINY = 256
ONE_OF = 1000
_COUNTS = re.compile(r"(\d+) tiles?[:,] (?:\d+ valid, )?(\d+) with a fault")


class Taken(NamedTuple):
    """What a process took: its time by the clock, and the processors' time of it and of all that it started."""

    seconds: float
    processor: float


class Peaks:
    """The most memory of a process, and of each of the workers that it started, as /proc has it while they run."""

    def __init__(self, process: int) -> None:
        self._process = process
        self._kib: Dict[int, int] = {}

    def look(self) -> None:
        for it in (self._process, *self._workers()):
            try:
                status = pathlib.Path(f"/proc/{it}/status").read_text()
            except OSError:
                continue
            found = re.search(r"VmHWM:\s+(\d+) kB", status)
            self._kib[it] = max(self._kib.get(it, 0), int(found[1]) if found else 0)

    def _workers(self) -> Iterator[int]:
        """Those that multiprocessing has started to work. (The other one cleans up.)"""
        for it in pathlib.Path(f"/proc/{self._process}/task").glob("*/children"):
            for child in it.read_text().split():
                try:
                    words = pathlib.Path(f"/proc/{child}/cmdline").read_bytes()
                except OSError:
                    continue
                if b"spawn_main" in words:
                    yield int(child)

    @property
    def client(self) -> float:
        return self._kib[self._process] / 1024

    @property
    def workers(self) -> List[float]:
        return [kib / 1024 for it, kib in self._kib.items() if it != self._process]


def words_of(workers: int, file: str, output: str) -> List[str]:
    """The command of a run with so many workers, or of one process without Dask for none."""
    if workers == 0:
        return [sys.executable, str(HERE / "planet_plain.py"), file]
    return [sys.executable, "-m", "mvtgate.planet", file, "--workers", str(workers), "--output", output, "--anew"]


def counts_of(said: str) -> Tuple[int, int]:
    """How many tiles a run has said that there are, and how many have a fault."""
    found = _COUNTS.findall(said)
    assert found, said
    tiles, faulty = found[-1]
    return int(tiles), int(faulty)


def run(words: Sequence[str], expected: Tuple[int, int]) -> Taken:
    """Runs a command, which has to say the counts that are expected."""
    before, began = resource.getrusage(resource.RUSAGE_CHILDREN), time.monotonic()
    done = subprocess.run(words, stdin=subprocess.DEVNULL, stdout=subprocess.PIPE, stderr=subprocess.STDOUT, encoding="utf-8")
    seconds, after = time.monotonic() - began, resource.getrusage(resource.RUSAGE_CHILDREN)
    assert done.returncode in (0, 1), done.stdout
    assert counts_of(done.stdout) == expected, (words, done.stdout, expected)
    return Taken(seconds, after.ru_utime + after.ru_stime - before.ru_utime - before.ru_stime)


class Kind(NamedTuple):
    """Tiles that are measured, and how many of a file's are faulty."""

    name: str
    tiles: List[bytes]

    def faulty(self, count: int) -> int:
        at_fault = [number for number, it in enumerate(self.tiles) if mvtgate.check(it)]
        whole, rest = divmod(count, len(self.tiles))
        return whole * len(at_fault) + sum(it < rest for it in at_fault)


def rates(kind: Kind, count: int, rounds: int, folder: str, ending: str) -> float:
    """Prints the table of tiles a second, and returns that of the most workers."""
    file, one = f"{folder}/tiles.{ending}", f"{folder}/one.{ending}"
    size = planet_tiles.write(file, kind.tiles, count)
    planet_tiles.write(one, kind.tiles, 1)
    all_runs: Dict[int, List[Taken]] = {it: [] for it in (0, *WORKERS)}
    starts: Dict[int, List[Taken]] = {it: [] for it in all_runs}
    for _ in range(rounds):
        for it in all_runs:
            output = f"{folder}/output"
            all_runs[it].append(run(words_of(it, file, output), (count, kind.faulty(count))))
            starts[it].append(run(words_of(it, one, output), (1, kind.faulty(1))))
    print(f"{count:,} tiles, {kind.name}: {kind.faulty(count):,} with a fault, {size / MIB:,.0f} MiB\n")
    print("| How | s | of it start and end, s | tiles a second | / one process | processor, µs a tile |")
    print("|---|---|---|---|---|---|")
    plain = 0.0
    for it, runs in all_runs.items():
        seconds, start = (statistics.median(taken.seconds for taken in of) for of in (runs, starts[it]))
        all_of, of_start = (statistics.median(taken.processor for taken in of) for of in (runs, starts[it]))
        rate = count / (seconds - start)
        plain = plain or rate
        name = f"{it} worker{'s' * (it > 1)}" if it else "one process, without Dask"
        print(f"| {name} | {seconds:.1f} | {start:.1f} | {rate:,.0f} | {rate / plain:.2f} | {(all_of - of_start) / count * 1e6:.0f} |")
    print(flush=True)
    pathlib.Path(file).unlink()
    return rate


def memory(kind: Kind, count: int, folder: str) -> None:
    """Prints a row of the table of memory."""
    file = f"{folder}/tiles.mbtiles"
    size = planet_tiles.write(file, kind.tiles, count)
    began = time.monotonic()
    with open(f"{folder}/said", "w+", encoding="utf-8") as said:
        words = words_of(max(WORKERS), file, f"{folder}/output")
        process = subprocess.Popen(words, stdin=subprocess.DEVNULL, stdout=said, stderr=said)
        peaks = Peaks(process.pid)
        while process.poll() is None:
            peaks.look()
            time.sleep(0.05)
        said.seek(0)
        assert counts_of(said.read()) == (count, kind.faulty(count))
    seconds = time.monotonic() - began
    journal = pathlib.Path(folder, "output/journal.jsonl").stat().st_size
    workers = peaks.workers
    row = f"| {count:,} | {size / MIB:,.0f} | {seconds:.0f} | {peaks.client:.0f} | {min(workers):.0f} to {max(workers):.0f} |"
    print(f"{row} {journal / MIB:.1f} |", flush=True)
    pathlib.Path(file).unlink()


def main() -> None:
    reader = argparse.ArgumentParser()
    reader.add_argument("--pmtiles", action="store_true")
    reader.add_argument("--tiles", type=int, default=200_000)
    reader.add_argument("--few", type=int, default=20_000)
    reader.add_argument("--many", type=int, default=2_000_000)
    reader.add_argument("--rounds", type=int, default=3)
    reader.add_argument("folder")
    said = reader.parse_args()
    tiles = planet_tiles.tiles_of(said.folder)
    valid = [it for it in tiles if mvtgate.check(it) is None]
    small, at_fault = [it for it in valid if len(it) <= TINY], [it for it in tiles if it not in valid]
    with tempfile.TemporaryDirectory(prefix="mvtgate-planet-") as folder:
        kinds = [Kind(f"all {len(tiles)} of the folder", tiles), Kind(f"the {len(valid)} of them that are valid", valid)]
        tiny = Kind(f"of up to {TINY} bytes, one of {ONE_OF} with a fault", [*(small * ONE_OF)[: ONE_OF - 1], min(at_fault, key=len)])
        kinds += [tiny] if said.pmtiles else []
        found = {kind.name: rates(kind, said.tiles, said.rounds, folder, "pmtiles" if said.pmtiles else "mbtiles") for kind in kinds}
        for name, rate in found.items():
            hours = ", ".join(f"{PLANET / rate / machines / 3600:.2f} hours on {machines}" for machines in MACHINES)
            print(f"at this rate 10^8 tiles ({name}) take {hours} machines of {max(WORKERS)} processors\n")
        if said.pmtiles:
            return
        print(f"memory with {max(WORKERS)} workers, tiles {tiny.name}:\n")
        print("| Tiles | File, MiB | s | client with scheduler, peak MiB | a worker, peak MiB | Journal, MiB |")
        print("|---|---|---|---|---|---|")
        for count in (said.few, said.many):
            memory(tiny, count, folder)


if __name__ == "__main__":
    main()

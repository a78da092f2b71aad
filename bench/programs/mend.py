"""The tables of bench/mend: mend.py [COUNT [FOLDER..]]."""
from __future__ import annotations

import cmath
import json
import pathlib
import random
import resource
import statistics
import subprocess
import sys
import time
from typing import List, Optional, Tuple

TOP = pathlib.Path(__file__).resolve().parents[2]
sys.path.insert(0, str(TOP / "tests/mending"))

import plane  # noqa: E402
import shapes  # noqa: E402
import wire  # noqa: E402

PROGRAM = TOP / "crates/mvtgate/out/mvtgate"
PEER = TOP / "bench/out/mend_peer"
PROFILES = ("polygon", "feature")
METHODS = ("linework", "structure", "linework+precision", "structure+precision", "clipper")
LARGE = (10_000, 100_000, 1_000_000)
REPEATS = 5


def run(*words: str, tile: bytes) -> Tuple[int, bytes, bytes]:
    ended = subprocess.run([PROGRAM, *words], input=tile, capture_output=True)
    return ended.returncode, ended.stdout, ended.stderr


def is_valid(rings: shapes.Rings, profile: str) -> bool:
    return bool(rings) and run("check", "--profile", profile, tile=wire.tile_of([rings]))[0] == 0


def features_of(words: List[str]) -> List[shapes.Rings]:
    """The features that are measured: those that one of the profiles refuses."""
    source, count = random.Random(1), int(words[0]) if words else 20
    found = [make(source) for make in shapes.KINDS.values() for _ in range(count)]
    for folder in words[1:]:
        for path in sorted(pathlib.Path(folder).rglob("*.mvt")):
            found += polygons_of(path.read_bytes())
    return [it for it in found if it and not all(is_valid(it, profile) for profile in PROFILES)]


def polygons_of(tile: bytes) -> List[shapes.Rings]:
    """The rings of the features of polygons in a tile that `dump` can list."""
    status, dumped, _ = run("dump", tile=tile)
    if status:
        return []
    features = [it for layer in json.loads(dumped)["layers"] for it in layer["features"] if it["type"] == 3]
    found = []
    for it in features:
        try:
            packed = b"".join(map(wire.varint, it["geometry"]))
            found.append(wire.rings_of(wire.field(wire.GEOMETRY, packed)))
        except IndexError:
            # (numbers that draw no rings)
            pass
    return found


def by_peer(method: str, features: List[shapes.Rings]) -> Tuple[List[shapes.Rings], float]:
    """What a library makes of the features, and its seconds."""
    lines = []
    for rings in features:
        numbers = [len(rings)]
        for ring in rings:
            numbers += [len(ring), *(z for position in ring for z in position)]
        lines.append(" ".join(map(str, numbers)))
    text = "\n".join(lines) + "\n"
    ended = subprocess.run([PEER, method], input=text, capture_output=True, text=True, check=True)
    *rows, microseconds = ended.stdout.splitlines()
    return [rings_in(row) for row in rows], int(microseconds) / 1e6


def rings_in(row: str) -> shapes.Rings:
    numbers = iter(map(int, row.split()))
    return [[(next(numbers), next(numbers)) for _ in range(next(numbers))] for _ in range(next(numbers))]


def by_mend(profile: str, features: List[shapes.Rings]) -> Tuple[List[shapes.Rings], float]:
    """The same by mvtgate, all features in one tile."""
    tile = wire.tile_of(features)
    begin = time.perf_counter()
    status, mended, said = run("mend", "--drop", "--profile", profile, tile=tile)
    seconds = time.perf_counter() - begin
    assert status == 0, said
    dropped = {it["feature"] for it in json.loads(said)["changed"] if it["what"] == "dropped"}
    after = iter([part for (layer, _), part in wire.features_of(mended).items() if layer == 1])
    return [[] if at in dropped else wire.rings_of(next(after)) for at in range(len(features))], seconds


def changed_area(old: shapes.Rings, new: shapes.Rings) -> Optional[float]:
    """The area that changed, of that which was meant."""
    meant = plane.region_meant(old, None)
    if not meant.area:
        return None
    try:
        return float(meant.symmetric_difference(plane.region_of(new)).area / meant.area)
    except Exception:
        # (rings that GEOS can't take)
        return None


def percent(part: float) -> str:
    return f"{100 * part:.2f} %"


def print_row(name: str, features: List[shapes.Rings], mended: List[shapes.Rings], seconds: float) -> None:
    vertices = sum(len(ring) for rings in features for ring in rings)
    valid = [sum(is_valid(it, profile) for it in mended) for profile in PROFILES]
    lost = sum(not it for it in mended)
    areas = sorted(it for it in map(changed_area, features, mended) if it is not None)
    quantiles = f"{percent(statistics.median(areas))}, {percent(areas[int(0.99 * (len(areas) - 1))])}"
    print(f"| {name} | {valid[0]}, {valid[1]} | {lost} | {quantiles} | {1e6 * seconds / vertices:.2f} |", flush=True)


def print_methods(features: List[shapes.Rings]) -> None:
    print(f"\n{len(features)} features that are refused by one profile at least")
    print("| Method | valid by polygon, by feature | empty | changed area, median, p99 | microseconds a vertex |")
    print("|---|---|---|---|---|")
    for profile in PROFILES:
        print_row(f"mend, {profile}", features, *by_mend(profile, features))
    for method in METHODS:
        print_row(method, features, *by_peer(method, features))


def seconds_of(*words: str, tile: bytes) -> float:
    """The processor time of a run, the least of several."""
    found = []
    for _ in range(REPEATS):
        before = resource.getrusage(resource.RUSAGE_CHILDREN)
        run(*words, tile=tile)
        after = resource.getrusage(resource.RUSAGE_CHILDREN)
        found.append(after.ru_utime + after.ru_stime - before.ru_utime - before.ru_stime)
    return min(found)


def coast(vertices: int) -> shapes.Rings:
    """A coast that is rough at each scale, rounded so that its edges are some three units long: here and there it touches or crosses
    itself."""
    source = random.Random(2)
    points = [cmath.rect(1, 2 * cmath.pi * at / 6) for at in range(6)]
    while len(points) < vertices:
        pairs = zip(points, points[1:] + points[:1])
        points = [it for a, b in pairs for it in (a, (a + b) / 2 + 1j * (b - a) * source.uniform(-0.26, 0.26))]
    length = sum(abs(b - a) for a, b in zip(points, points[1:]))
    scale = 3 * len(points) / length
    ring = [(round(scale * it.real), round(scale * it.imag)) for it in points]
    return [shapes.wound(shapes.without_repeats(ring), True)]


def print_times() -> None:
    print("\n| Coast, vertices | profile | mend, s | check of what came out, s | mend / check | microseconds a vertex |")
    print("|---|---|---|---|---|---|")
    for vertices in LARGE:
        rings = coast(vertices)
        tile, count = wire.tile_of([rings]), len(rings[0])
        assert run("check", tile=tile)[0] == 1
        for profile in PROFILES:
            mended = run("mend", "--drop", "--profile", profile, tile=tile)[1]
            mend, check = (seconds_of(it, "--profile", profile, tile=by) for it, by in (("mend", tile), ("check", mended)))
            print(f"| {count} | {profile} | {mend:.3f} | {check:.3f} | {mend / check:.1f} | {1e6 * mend / count:.2f} |", flush=True)


def main() -> None:
    print_methods(features_of(sys.argv[1:]))
    print_times()


if __name__ == "__main__":
    main()

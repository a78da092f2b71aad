"""Mends generated features and refused tiles, and holds what comes out against what `mend` promises: run.py [SEED [COUNT [FOLDER..]]].

COUNT tiles for each profile, each with a feature of each kind of shapes.py, and the tiles `*.mvt` of `tiles/` and of each FOLDER. Of
each tile, with --drop:

- `mend` has the status 0, and `check` says that what it writes is valid. It is the tile itself where that was valid.
- Mended once more it is the same bytes, and the report has no change.
- Field by field it is the tile but for the features of the report; of those that are mended only the geometry is another, and those
  that are dropped are missing. Each of them had a fault.
- Each new position is an old one or within 2 units of an old edge. What is farther than that from all old edges is filled as before,
  by the rule of docs/MEND.md, whose faces are GEOS's; and where nothing was cut or rounded all is.
- By 'polygon' each polygon that had no fault is one of the new ones, in order, unless the first ring with an area is a hole; the judge
  of tests/polygons says which (of up to 24 vertices).
- A generated feature is dropped only where it has no area after rounding.

A tile with another fault than those of polygons is refused with the line of `check`, and nothing is written. The last line is
'N passed, M failed': one for each tile and profile.
"""
from __future__ import annotations

import concurrent.futures
import importlib.machinery
import importlib.util
import json
import os
import pathlib
import random
import subprocess
import sys
from typing import Any, Dict, Iterator, List, Tuple

import plane
import shapes
import wire

TOP = pathlib.Path(__file__).resolve().parent.parent.parent
PROGRAM = TOP / "crates/mvtgate/out/mvtgate"
PROFILES = ("polygon", "feature")
MOST_VERTICES_TO_JUDGE = 24
POLYGON = 3


def load_judge() -> Any:
    """tests/polygons, as a module."""
    loader = importlib.machinery.SourceFileLoader("polygons", str(TOP / "tests/polygons"))
    module = importlib.util.module_from_spec(importlib.util.spec_from_loader("polygons", loader))  # type: ignore[arg-type]
    loader.exec_module(module)
    return module


judge = load_judge()


def run(*words: str, tile: bytes) -> Tuple[int, bytes, bytes]:
    ended = subprocess.run([PROGRAM, *words], input=tile, capture_output=True)
    return ended.returncode, ended.stdout, ended.stderr


def is_of_polygons(line: bytes, tile: bytes) -> bool:
    """Whether a fault is of rings or polygons, or of the commands of a feature of the type of polygons that may still draw rings."""
    fault = json.loads(line)
    code = fault.get("code", 0)
    return code >= 501 or code in (402, 406) and type_of(tile, fault["layer"], fault["feature"]) == POLYGON


def type_of(tile: bytes, layer: int, feature: int) -> int:
    features = json.loads(run("dump", tile=tile)[1])["layers"][layer]["features"]
    return int(features[feature]["type"])


def right_polygons(rings: shapes.Rings) -> List[shapes.Rings]:
    """The polygons that break no rule by themselves, of those that are few enough to say."""
    runs: List[shapes.Rings] = []
    for ring in rings:
        if shapes.doubled_area(ring) > 0 or not runs:
            runs.append([])
        runs[-1].append(ring)
    return [it for it in runs if sum(map(len, it)) <= MOST_VERTICES_TO_JUDGE and is_right(it)]


def is_right(rings: shapes.Rings) -> bool:
    is_spelled = all(len(it) > 2 and all(a != b for a, b in zip(it, it[1:] + it[:1])) for it in rings)
    return is_spelled and judge.allowed(rings, "polygon") == [{"ok": True}]


def runs_of(rings: shapes.Rings) -> List[shapes.Rings]:
    runs: List[shapes.Rings] = []
    for ring in rings:
        if shapes.doubled_area(ring) > 0:
            runs.append([])
        runs[-1].append(ring)
    return runs


def is_in_order(some: List[shapes.Rings], all_of_them: List[shapes.Rings]) -> bool:
    left = iter(all_of_them)
    return all(it in left for it in some)


def feature_mistakes(profile: str, old: shapes.Rings, new: shapes.Rings, change: Dict[str, Any]) -> Iterator[str]:
    is_exact = change["cuts"] == 0 and change["crossings"] == 0
    yield from plane.mistakes(old, new, is_exact, is_right if profile == "polygon" else None)
    if profile == "polygon" and not plane.begin_backwards(old) and not is_in_order(right_polygons(old), runs_of(new)):
        yield "a polygon without a fault is gone"
    areas = [str(sum(map(shapes.doubled_area, it))) for it in (old, new)]
    vertices, polygons = [sum(map(len, it)) for it in (old, new)], sum(shapes.doubled_area(it) > 0 for it in new)
    if (areas, vertices, polygons) != (change["area"], change["vertices"], change["polygons"][1]):
        yield f"the report says {change}, and it is {areas}, {vertices}, {polygons}"


def mistakes(tile: bytes, profile: str, is_generated: bool) -> Iterator[str]:
    checked, line, _ = run("check", "--profile", profile, tile=tile)
    status, mended, said = run("mend", "--drop", "--profile", profile, tile=tile)
    if status == 1:
        faults = run("check", "--all", "--profile", profile, tile=tile)[1].splitlines(keepends=True)
        others = [it for it in faults if not is_of_polygons(it, tile)]
        if mended or not others or said != others[0]:
            yield f"refused with {said!r} and {len(mended)} bytes, where other faults than polygons' are {others[:1]}"
        return
    if status:
        yield f"status {status}, {said!r}"
        return
    if run("check", "--profile", profile, tile=mended)[:2] != (0, b'{"ok":true}\n'):
        yield f"what comes out is refused: {run('check', '--profile', profile, tile=mended)[1]!r}"
    if run("mend", "--profile", profile, tile=mended) != (0, mended, b'{"changed":[],"ok":true}\n'):
        yield "mended again it is another tile"
    report = json.loads(said)
    if checked == 0 and (mended != tile or report["changed"]):
        yield "a valid tile isn't the same"
    changes = {(it["layer"], it["feature"]): it for it in report["changed"]}
    if list(changes) != sorted(changes) or len(changes) != len(report["changed"]):
        yield "the report isn't in order"
    yield from wire.differences(tile, mended, changes)
    yield from changes_mistakes(tile, mended, profile, changes, is_generated)


def changes_mistakes(
    tile: bytes, mended: bytes, profile: str, changes: Dict[Tuple[int, int], Any], is_generated: bool
) -> Iterator[str]:
    lines = run("check", "--all", "--profile", profile, tile=tile)[1].splitlines()
    faulty = [(it["layer"], it["feature"]) for it in map(json.loads, lines) if "feature" in it]
    if sorted(changes) != sorted(faulty):
        yield f"changed are {sorted(changes)}, and faulty {sorted(faulty)}"
    features, after, dropped = wire.features_of(tile), wire.features_of(mended), 0
    for (layer, at), old in features.items():
        if at == 0:
            dropped = 0
        change = changes.get((layer, at))
        if change is None:
            continue
        rings = wire.rings_of(old)
        if change["what"] == "dropped":
            dropped += 1
            if is_generated and plane.region_meant(rings, None).area > 2:
                yield f"feature {at} is dropped: {rings}"
            continue
        new = wire.rings_of(after[layer, at - dropped])
        yield from (f"feature {at}: {it}; {rings}" for it in feature_mistakes(profile, rings, new, change))


def generated(seed: int) -> bytes:
    source = random.Random(seed)
    features = [make(source) for make in shapes.KINDS.values()]
    return wire.tile_of([it for it in features if it])


def failures(task: Tuple[str, bytes, str, bool]) -> List[str]:
    name, tile, profile, is_generated = task
    return [f"{name}, {profile}: {it}" for it in mistakes(tile, profile, is_generated)]


def main() -> int:
    words = sys.argv[1:]
    seed, count = (*map(int, words[:2]), *(1, 200)[len(words[:2]) :])
    folders = [TOP / "tiles", *map(pathlib.Path, words[2:])]
    tasks = [(f"generated {at}", generated(at), profile, True) for at in range(seed, seed + count) for profile in PROFILES]
    files = [it for folder in folders for it in sorted(folder.rglob("*.mvt"))]
    tasks += [(it.name, it.read_bytes(), profile, False) for it in files for profile in PROFILES]
    with concurrent.futures.ProcessPoolExecutor(os.cpu_count()) as pool:
        found = list(pool.map(failures, tasks, chunksize=4))
    wrong = [it for it in found if it]
    for it in wrong:
        print(*it, sep="\n")
    print(f"{len(found) - len(wrong)} passed, {len(wrong)} failed")
    return bool(wrong)


if __name__ == "__main__":
    sys.exit(main())

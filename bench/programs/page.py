#!/usr/bin/env python3
"""Times the page's module in Node and in Chromium beside the native library, on the same tiles in turn, and prints tables.

usage: page.py [FOLDER OF TILES]. Run it by bench/page, which builds what it needs.
"""
from __future__ import annotations

import base64
import gzip
import json
import math
import pathlib
import re
import statistics
import subprocess
import sys
import time
from typing import Any, Callable, Dict, List, Tuple

TOP = pathlib.Path(__file__).resolve().parents[2]
MODULE, PAGE = TOP / "web/module/out/mvtgate.wasm", TOP / "web/out/index.html"
sys.dont_write_bytecode = True
sys.path[:0] = [str(TOP / "bench/makers"), str(TOP / "bindings/python/src")]

import inputs
import shapes

MB, MIB = 1_000_000, 1 << 20
TURNS, ROUNDS = 3, 9
BATCH_SECONDS = 0.005
# of a folder's tiles the one of middle size is taken
OTHERS: Dict[str, Callable[[], bytes]] = {
    "1 MB of features with tags": lambda: inputs.many_features(MB),
    "1 MB of polygons of 40 vertices": lambda: inputs.polygons(MB, 40),
    "a ring of 200,000 vertices": lambda: shapes.tile(shapes.coast(200_000)),
}
Times = Dict[str, Any]
NODE = """
import { readFileSync } from 'node:fs';
import { times } from '%s/bench/programs/page_times.js';
const [module, tile, rounds] = JSON.parse(readFileSync(0, 'utf8'));
console.log(JSON.stringify(times(module, tile, rounds)));
"""


def resident(name: str) -> int:
    """The bytes of this process that are in memory now (VmRSS), or were at most (VmHWM)."""
    [kib] = re.findall(rf"^{name}:\s+(\d+) kB$", pathlib.Path("/proc/self/status").read_text(), re.M)
    return 1024 * int(kib)


def native_times(tile: bytes, rounds: int) -> Times:
    """As page_times.js has them: of the library by the Python package, which reads the tile where it is."""
    from mvtgate import _library as native

    def timed(count: int) -> float:
        before = time.perf_counter()
        for _ in range(count):
            native.check(0, tile, False)
        return 1000 * (time.perf_counter() - before) / count

    # (5 has the kernel forget the greatest size so far)
    pathlib.Path("/proc/self/clear_refs").write_text("5")
    held = resident("VmRSS")
    first = timed(1)
    most = resident("VmHWM")
    count = max(1, math.ceil(1000 * BATCH_SECONDS / timed(3)))
    return {"first": first, "later": [timed(count) for _ in range(rounds)], "memory": most - held}


def in_process(words: List[str], tile: bytes) -> Times:
    given = json.dumps([base64.b64encode(MODULE.read_bytes()).decode(), base64.b64encode(tile).decode(), ROUNDS])
    run = subprocess.run(words, input=given, stdout=subprocess.PIPE, text=True, check=True)
    answer: Times = json.loads(run.stdout)
    return answer


def native(tile: bytes) -> Times:
    return in_process([sys.executable, __file__, "--native"], tile)


def node(tile: bytes) -> Times:
    return in_process(["node", "--input-type=module", "-e", NODE % TOP], tile)


def chromium(tile: bytes) -> Times:
    from selenium import webdriver

    options = webdriver.ChromeOptions()
    options.binary_location = "/usr/bin/chromium"
    for it in ("--headless=new", "--no-sandbox", "--disable-gpu", "--disable-dev-shm-usage"):
        options.add_argument(it)
    driver = webdriver.Chrome(service=webdriver.chrome.service.Service("/usr/bin/chromedriver"), options=options)
    try:
        driver.set_script_timeout(600)
        script = (TOP / "bench/out/page_times.js").read_text() + "; return bench.times(...arguments);"
        words = (base64.b64encode(MODULE.read_bytes()).decode(), base64.b64encode(tile).decode(), ROUNDS)
        answer: Times = driver.execute_script(script, *words)
        return answer
    finally:
        driver.quit()


def callers() -> Dict[str, Callable[[bytes], Times]]:
    found = {"library": native, "Node": node}
    try:
        chromium(b"")
        return {**found, "Chromium": chromium}
    except Exception as error:
        print(f"bench/page: Chromium is left out: {str(error).splitlines()[0]}", file=sys.stderr)
        return found


def measured(tile: bytes, by: Dict[str, Callable[[bytes], Times]]) -> Dict[str, Times]:
    """The medians of the first calls of all turns, in each of which all of them are asked, and the least times of later ones."""
    turns = [{name: call(tile) for name, call in by.items()} for _ in range(TURNS)]
    return {
        name: {
            "first": statistics.median(it[name]["first"] for it in turns),
            "later": min(time for it in turns for time in it[name]["later"]),
            "memory": max(it[name]["memory"] for it in turns),
        }
        for name in by
    }


def print_row(*cells: str) -> None:
    print(f"| {' | '.join(cells)} |", flush=True)


def print_sizes() -> None:
    print_row("File", "Bytes", "Bytes as gzip")
    print_row(*["---"] * 3)
    for path in (MODULE, PAGE):
        whole = path.read_bytes()
        print_row(path.name, f"{len(whole):,}", f"{len(gzip.compress(whole, 9)):,}")
    print()


def tiles_of(folders: List[str]) -> List[Tuple[str, bytes]]:
    real = sorted((it.read_bytes() for folder in folders for it in pathlib.Path(folder).glob("*.mvt")), key=len)
    middle = [("a real tile of middle size", real[len(real) // 2])] if real else []
    sample = ("`tiles/crossing_edges.mvt`", (TOP / "tiles/crossing_edges.mvt").read_bytes())
    return [sample, *middle, *((name, make()) for name, make in OTHERS.items())]


def print_times(folders: List[str]) -> None:
    by = callers()
    modules = [it for it in by if it != "library"]
    heads = ["Tile", "Bytes", "library, ms", *(f"{it}, ms" for it in modules), *(f"{it} / library" for it in modules)]
    heads += [*(f"first in {it}, ms" for it in modules), "library, MiB", "module, MiB"]
    print_row(*heads)
    print_row(*["---"] * len(heads))
    for name, tile in tiles_of(folders):
        found = measured(tile, by)
        base = found["library"]["later"]
        cells = [name, f"{len(tile):,}", f"{base:.3f}", *(f"{found[it]['later']:.3f}" for it in modules)]
        cells += [f"{found[it]['later'] / base:.1f}" for it in modules]
        cells += [f"{found[it]['first']:.1f}" for it in modules]
        print_row(*cells, *(f"{found[it]['memory'] / MIB:.1f}" for it in ("library", "Node")))


def main() -> None:
    if sys.argv[1:] == ["--native"]:
        _, tile, rounds = json.load(sys.stdin)
        print(json.dumps(native_times(base64.b64decode(tile), rounds)))
        return
    print_sizes()
    print_times(sys.argv[1:])


main()

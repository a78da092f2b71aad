#!/usr/bin/env python3
"""Times `check` and `confirm` of a program in turn on tiles with a fault, and prints a table of medians.

usage: confirm.py PROGRAM TILE..

`check` reports a tile's fault, and `confirm` has to say that it is true of the tile; the fault with its code's first
ordinal one up has to be refused. What `check` wrote is kept beside the tile as TILE.fault.
"""
import json
import os
import statistics
import subprocess
import sys
import time

RUNS = 5


def run(words):
    """The line that a program writes, its status and its time."""
    before = time.perf_counter()
    ended = subprocess.run(words, stdout=subprocess.PIPE, check=False)
    return ended.stdout.decode(), ended.returncode, time.perf_counter() - before


def expect(said, line, status):
    if said[:2] != (line, status):
        sys.exit(f"confirm.py: {said[0]!r} with status {said[1]}, wanted {line!r} with status {status}")
    return said[2]


def changed(line):
    """The fault with one of its numbers one up, of which it isn't true any more."""
    fault = json.loads(line)
    number = next(key for key in ("at", "ring", "polygon", "index", "second", "layer") if key in fault)
    fault[number] += 1
    return json.dumps(fault)


def measure(program, tile):
    line, status, _ = run([program, "check", tile])
    if status != 1:
        sys.exit(f"confirm.py: check of {tile} has status {status}, and not that of a fault")
    for name, text in ("fault", line), ("wrong_fault", changed(line)):
        with open(f"{tile}.{name}", "w", encoding="utf-8") as it:
            it.write(text)
    checks, confirms, refusals = [], [], []
    for _ in range(RUNS):
        checks.append(expect(run([program, "check", tile]), line, 1))
        confirms.append(expect(run([program, "confirm", tile, f"{tile}.fault"]), '{"confirmed":true}\n', 0))
        refusals.append(expect(run([program, "confirm", tile, f"{tile}.wrong_fault"]), '{"confirmed":false}\n', 1))
    return [statistics.median(it) for it in (checks, confirms, refusals)], json.loads(line)["code"]


def main():
    program, *tiles = sys.argv[1:]
    print("| Tile | Code | Bytes | check, s | confirm, s | confirm / check | confirm of a wrong fault, s |")
    print("|---|---|---|---|---|---|---|")
    for tile in tiles:
        (check, confirm, refusal), code = measure(program, tile)
        name, size = os.path.basename(tile), os.path.getsize(tile)
        print(f"| {name} | {code} | {size:,} | {check:.3f} | {confirm:.3f} | {confirm / check:.2f} | {refusal:.3f} |", flush=True)


main()

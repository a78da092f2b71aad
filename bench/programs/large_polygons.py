#!/usr/bin/env python3
"""Times several programs in turn on the same tiles, whole processes, and prints a table of medians.

usage: large_polygons.py SECONDS NAME=COMMAND.. -- TILE..

The first program is ours. A first run of each, by GNU time, is for its memory; the others are timed. A tile on which a
program takes longer than so many seconds is left out for it, with the shape's larger tiles. Each status is 0 or 1, and
beside a time stands what the program said.
"""
import os
import shlex
import statistics
import subprocess
import sys
import time

from measure import GNU_TIME, start

# A row has at least so many runs of each program, and more while they take little time: a host that gives more time at
# one moment than at another changes the median of a few short runs.
LEAST_RUNS = 5
MOST_RUNS = 25
SECONDS_FOR_MORE = 3
# A row that takes longer than this is run once.
LONG = 10
PAGE_KIB = 1024


def look(words, tile, limit):
    """What a program says of a tile, its time and its greatest resident set in MiB, or None where it takes too long. The
    time is a little longer than its own, since GNU time starts it."""
    before = time.perf_counter()
    with open(tile, "rb") as it:
        started = subprocess.Popen([GNU_TIME, "-f", "%M", *words], stdin=it, stdout=subprocess.DEVNULL, stderr=subprocess.PIPE)
    try:
        _, said = started.communicate(timeout=limit)
    except subprocess.TimeoutExpired:
        subprocess.run(["pkill", "-P", str(started.pid)], check=False)
        started.communicate()
        return None
    took = time.perf_counter() - before
    if started.returncode not in (0, 1):
        sys.exit(f"large_polygons.py: {words[0]} ended with status {started.returncode} on {tile}")
    return ("yes", "no")[started.returncode], took, int(said.split()[-1]) / PAGE_KIB


def timed(words, tile):
    """The time of one run of a program, from its start to its end."""
    before = time.perf_counter()
    start(words, tile)
    return time.perf_counter() - before


def measure(programs, tile, limit, left_out):
    """What each program says, by name, with its times and its greatest resident set."""
    shape = os.path.basename(tile).rpartition("_")[0]
    looks = {}
    for name, words in programs.items():
        if (name, shape) not in left_out:
            looks[name] = look(words, tile, limit)
            if looks[name] is None:
                left_out.add((name, shape))
    looks = {name: it for name, it in looks.items() if it is not None}
    # (a run for memory alone is enough where it takes long)
    times = {name: [it[1]] if it[1] > LONG else [] for name, it in looks.items()}
    begin = time.perf_counter()
    for number in range(MOST_RUNS):
        if number >= LEAST_RUNS and time.perf_counter() - begin > SECONDS_FOR_MORE:
            break
        for name, (_, took, _) in looks.items():
            if took <= LONG:
                times[name].append(timed(programs[name], tile))
    return {name: (verdict, times[name], mib) for name, (verdict, _, mib) in looks.items()}


def ratio(ours, theirs):
    """The median of the quotients of two runs, one after the other: a host that is slower for a while slows both."""
    return statistics.median(one / other for one, other in zip(ours, theirs))


def cells(programs, tile, found):
    ours = next(iter(programs))
    yield os.path.basename(tile)
    for name in programs:
        if name not in found:
            yield "-"
            continue
        verdict, times, mib = found[name]
        yield f"{statistics.median(times):.4f} ({verdict}, {mib:.0f} MiB)"
    for name in list(programs)[1:]:
        yield f"{ratio(found[ours][1], found[name][1]):.2f}" if {ours, name} <= set(found) else "-"


def main():
    limit, *rest = sys.argv[1:]
    split = rest.index("--")
    programs = {name: shlex.split(words) for name, _, words in (it.partition("=") for it in rest[:split])}
    ours, *peers = programs
    heads = ["Tile", *(f"{it}, s" for it in programs), *(f"{ours} / {it}" for it in peers)]
    print(f"| {' | '.join(heads)} |\n|{'---|' * len(heads)}")
    left_out = set()
    for tile in rest[split + 1 :]:
        found = measure(programs, tile, float(limit), left_out)
        print(f"| {' | '.join(cells(programs, tile, found))} |", flush=True)


main()

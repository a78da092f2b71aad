#!/usr/bin/env python3
"""Times the gate's C library from C and other languages, and its peers, on the same tiles in turn, and prints tables.

usage: library.py FOLDER WITHOUT_POLYGONS CALLER=COMMAND..

CALLER is C or another language, and COMMAND is one word with the words of the command in it: a program with the mode `times`, as
bench/peer/library.cpp has it, and those of RATED also with the mode `rate`. C is also the peers. FOLDER holds tiles, NAME.mvt, and WITHOUT_POLYGONS the
same without their polygons.
"""
import argparse
import collections
import os
import pathlib
import shlex
import statistics
import subprocess

# Each program is started so often, in turn with the others, and each time goes so often over the tiles.
TURNS, ROUNDS = 3, 3
RATE_TURNS, RATE_SECONDS = 5, 1.0
RATED = ("C", "Python", "Rust", "Go")
KIB = 1024
CLASSES = [(256, "up to 256 bytes")] + [(size * KIB, f"up to {size} KiB") for size in (1, 4, 16, 64)]
LARGEST = (float("inf"), "more")


class Times:
    """What was measured of one tile: its answers, the nanoseconds of a call, and quotients of calls that came one after
    the other."""

    def __init__(self):
        self.code, self.takes, self.calls = None, None, collections.defaultdict(list)

    def add_peers(self, words):
        self.code, *takes = map(int, words[:3])
        self.takes = tuple(map(bool, takes))
        gate, rules, both = map(float, words[3:])
        for name, value in {"C": gate, "rules": rules, "both": both, "C / rules": gate / rules, "C / both": gate / both}.items():
            self.calls[name].append(value)

    def median(self, name):
        return statistics.median(self.calls[name])


def lines_of(command, *words):
    run = subprocess.run([*command, *map(str, words)], stdout=subprocess.PIPE, text=True, check=True)
    return [line.split() for line in run.stdout.splitlines()]


def measure_times(callers, tiles):
    """The times of each tile."""
    times = [Times() for _ in tiles]
    for _ in range(TURNS):
        for caller, command in callers.items():
            for number, *words in lines_of(command, "times", ROUNDS, *tiles):
                it = times[int(number)]
                if caller == "C":
                    it.add_peers(words)
                else:
                    it.calls[caller].append(float(words[0]))
    return times


def measure_rate(callers, tiles, mode, count):
    """For each caller the medians of: calls a second of processor time, calls a second of the clock, and how many
    processors it had."""
    rates = {caller: [] for caller in callers}
    for _ in range(RATE_TURNS):
        for caller, command in callers.items():
            [words] = lines_of(command, mode, RATE_SECONDS, count, *tiles)
            calls, used, passed = map(float, words)
            rates[caller].append((calls / used, calls / passed, used / passed))
    return {caller: [statistics.median(column) for column in zip(*them)] for caller, them in rates.items()}


def print_table(heads, rows):
    for cells in [heads, ["---"] * len(heads), *rows]:
        print(f"| {' | '.join(cells)} |", flush=True)


def microseconds(nanoseconds):
    return f"{nanoseconds / 1000:,.2f}"


def times_row(name, tiles, times, callers):
    """A row of medians over tiles."""
    def over(column):
        return statistics.median(it.median(column) for it in times)

    cells = [name, str(len(tiles)), f"{sum(map(os.path.getsize, tiles)) / len(tiles):,.0f}"]
    cells += [microseconds(over(column)) for column in [*callers, "rules", "both"]]
    return cells + [f"{over(column):.2f}" for column in ["C / rules", "C / both"]]


def class_of(tile):
    size = os.path.getsize(tile)
    return next(name for most, name in [*CLASSES, LARGEST] if size <= most)


def print_times(tiles, times, callers):
    heads = ["Tiles", "Number", "Bytes, mean", *(f"{it}, µs" for it in callers), "protozero, µs", "with GEOS, µs"]
    heads += ["C / protozero", "C / with GEOS"]
    groups = collections.defaultdict(list)
    for tile, it in zip(tiles, times):
        is_taken = it.code == 0 and all(it.takes)
        groups[class_of(tile) if is_taken else "the gate or a peer says no"].append((tile, it))
    order = [name for _, name in [*CLASSES, LARGEST]] + ["the gate or a peer says no"]
    rows = [times_row(name, *zip(*groups[name]), callers) for name in order if name in groups]
    print_table(heads, rows)


def print_answers(tiles, times):
    """How many tiles got which answers."""
    counts = collections.Counter((it.code == 0, *it.takes) for it in times)
    words = {True: "yes", False: "no"}
    rows = [[words[it] for it in answers] + [str(counts[answers])] for answers in sorted(counts, reverse=True)]
    print_table(["the gate", "protozero", "GEOS", "Tiles"], rows)


def print_rates(callers, tiles):
    processors = os.cpu_count()
    callers = {name: command for name, command in callers.items() if name in RATED}
    one = measure_rate(callers, tiles, "rate", 1)
    every = measure_rate(callers, tiles, "rate", processors)
    rows = [[caller, one[caller], every[caller]] for caller in callers]
    if "Python" in callers:
        python = {"Python": callers["Python"]}
        alone = measure_rate(python, tiles, "rate-processes", processors)["Python"]
        rows.append([f"Python, {processors} processes", None, alone])
    heads = ["From", "µs a tile", "tiles a second of one processor", f"tiles a second, {processors} at once", "processors it had"]
    print_table(heads, [
        [name, *([microseconds(1e9 / at_one[0]), f"{at_one[0]:,.0f}"] if at_one else ["-", "-"]), f"{at_all[1]:,.0f}", f"{at_all[2]:.1f}"]
        for name, at_one, at_all in rows
    ])


def main():
    reader = argparse.ArgumentParser()
    reader.add_argument("folder", type=pathlib.Path)
    reader.add_argument("without_polygons", type=pathlib.Path)
    reader.add_argument("callers", nargs="+", metavar="CALLER=COMMAND")
    said = reader.parse_args()
    callers = {name: shlex.split(command) for name, _, command in (it.partition("=") for it in said.callers)}
    print(f"load of the machine before: {os.getloadavg()[0]:.1f}")
    for folder, about in [(said.folder, "the tiles as they are"), (said.without_polygons, "the same without their polygons")]:
        tiles = sorted(folder.glob("*.mvt"))
        times = measure_times(callers, tiles)
        print(f"\nA call, {about}; medians of {TURNS * ROUNDS} batches a tile, and of the tiles:\n")
        print_times(tiles, times, callers)
        print(f"\nWhat each says, {about}:\n")
        print_answers(tiles, times)
        print(f"\nAll tiles again and again, {about}; medians of {RATE_TURNS} runs of {RATE_SECONDS:g} s:\n")
        print_rates(callers, tiles)
    print(f"\nload of the machine after: {os.getloadavg()[0]:.1f}")


if __name__ == "__main__":
    main()

#!/usr/bin/env python3
"""Times `check` from Python, for bench/library, with the module in the folder of PYTHONPATH.

library_python.py times ROUNDS FILE..: in each round, tile by tile, a batch of calls. A line for each tile of a round: its
number in the list, and the nanoseconds of processor time that a call takes.

library_python.py rate SECONDS WORKERS FILE..: all tiles again and again, by so many threads at once, or processes for
`rate-processes`. One line: the calls, the seconds of processor time and those of the clock.
"""
import concurrent.futures
import pathlib
import sys
import time

import mvtgate


def seconds_a_call(tile, calls):
    check = mvtgate.check
    before = time.thread_time_ns()
    for _ in range(calls):
        check(tile)
    return (time.thread_time_ns() - before) / calls / 1e9


def batch(tile):
    """How many calls take about two milliseconds."""
    return min(100_000, max(1, int(2e-3 / max(seconds_a_call(tile, 3), 1e-8))))


def print_times(tiles, rounds):
    for _ in range(rounds):
        for number, tile in enumerate(tiles):
            print(number, round(1e9 * seconds_a_call(tile, batch(tile)), 1))


def calls_until(tiles, end):
    """The calls of one worker until this time of the clock, and the seconds of processor time of its process."""
    check, calls, used = mvtgate.check, 0, time.process_time()
    while time.monotonic() < end:
        for tile in tiles:
            check(tile)
        calls += len(tiles)
    return calls, time.process_time() - used


def print_rate(tiles, length, count, workers):
    with workers(count) as pool:
        # (so that all workers are there before the time begins)
        list(pool.map(calls_until, [tiles] * count, [time.monotonic() + 0.1] * count))
        used, begin = time.process_time(), time.monotonic()
        answers = list(pool.map(calls_until, [tiles] * count, [begin + length] * count))
        passed, took = time.monotonic() - begin, time.process_time() - used
    if workers is concurrent.futures.ProcessPoolExecutor:
        took = sum(it for _, it in answers)
    print(sum(calls for calls, _ in answers), f"{took:.6f} {passed:.6f}")


def main():
    mode, *words = sys.argv[1:]
    if mode == "times":
        rounds, *files = words
        print_times([pathlib.Path(it).read_bytes() for it in files], int(rounds))
        return
    length, count, *files = words
    workers = {"rate": concurrent.futures.ThreadPoolExecutor, "rate-processes": concurrent.futures.ProcessPoolExecutor}[mode]
    print_rate([pathlib.Path(it).read_bytes() for it in files], float(length), int(count), workers)


if __name__ == "__main__":
    main()

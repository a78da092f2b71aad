#!/usr/bin/env python3
"""Times the calls of two programs that do the same, and prints nanoseconds a call and their quotient.

usage: plane.py PROGRAM PEER

Each is run in turn as PROGRAM CALL ROUNDS, with no rounds and with many; the difference is the time of the calls.
"""
import statistics
import subprocess
import sys
import time

CALLS = ["orient", "neighbours", "apart", "crossing", "inside", "inside_scattered"]
EACH, ROUNDS, REPEATS = 1_000_000, 64, 7


def timed(program, call, rounds):
    """The time of a run in seconds, and what it printed."""
    before = time.perf_counter()
    said = subprocess.run([program, call, str(rounds)], check=True, capture_output=True).stdout
    return time.perf_counter() - before, said


def main():
    programs = sys.argv[1:]
    if len(programs) != 2:
        sys.exit(__doc__)
    print("| Call | mvt_plane, ns | C++, ns | mvt_plane / C++ |")
    print("|---|---|---|---|")
    for call in CALLS:
        took = {program: {0: [], ROUNDS: []} for program in programs}
        sums = set()
        for _ in range(REPEATS):
            for program in programs:
                for rounds in (0, ROUNDS):
                    seconds, said = timed(program, call, rounds)
                    took[program][rounds].append(seconds)
                    if rounds:
                        sums.add(said)
        if len(sums) != 1:
            sys.exit(f"plane.py: the programs print different sums for {call}")
        ours, peer = (
            1e9 * (statistics.median(took[it][ROUNDS]) - statistics.median(took[it][0])) / (ROUNDS * EACH)
            for it in programs
        )
        print(f"| {call} | {ours:.2f} | {peer:.2f} | {ours / peer:.2f} |", flush=True)


main()

#!/usr/bin/env python3
"""Times two commands in turn on the same files, each as standard input, and prints a table of medians.

usage: measure.py COMMAND PEER FILE.. [--tiles FOLDER]

COMMAND and PEER are one word each, with the words of the command in it. Each file is a row of its own; the tiles of
the folder, NAME.mvt, are one row, the total of a run over each. A file has no fault, so its run ends with status 0; a
tile may have one, which is an answer too and has status 1.
"""
import argparse
import glob
import os
import shlex
import statistics
import sys
import tempfile
import time

MIB = 1 << 20
# A row is repeated until its time is used up, within these bounds, so that the whole stays a few minutes.
FEWEST, MOST, SECONDS = 3, 9, 20
GNU_TIME = "/usr/bin/time"


def start(words, file):
    """Runs a program on a file as its standard input, with its output dropped, and returns its status and greatest resident set in KiB."""
    files = [
        (os.POSIX_SPAWN_OPEN, 0, file, os.O_RDONLY, 0),
        (os.POSIX_SPAWN_OPEN, 1, os.devnull, os.O_WRONLY, 0),
    ]
    child = os.posix_spawnp(words[0], words, os.environ, file_actions=files)
    _, status, used = os.wait4(child, 0)
    return os.waitstatus_to_exitcode(status), used.ru_maxrss


def seconds(words, files, greatest):
    """The whole time of the processes, from the start of each to its end, and whether no status is above the greatest."""
    is_well, before = True, time.perf_counter()
    for file in files:
        is_well = 0 <= start(words, file)[0] <= greatest and is_well
    return time.perf_counter() - before, is_well


def peak(words, files):
    """The greatest resident set of the processes, in MiB."""
    # A child that Python starts counts Python's own pages too, so a small program has to stand between them.
    if not os.path.exists(GNU_TIME):
        return max(start(words, file)[1] for file in files) / 1024
    with tempfile.NamedTemporaryFile("r") as said:
        kib = []
        for file in files:
            start([GNU_TIME, "-f", "%M", "-o", said.name, *words], file)
            said.seek(0)
            # (a line on a failed status may come first)
            kib.append(int(said.read().split()[-1]))
        return max(kib) / 1024


def measure(ours, peer, files, greatest):
    """The median times of both, their peaks and the number of repetitions. The peer's are None where a status of it is
    above the greatest."""
    # The runs for memory come first, and so bring the files into the cache.
    peaks, times = [peak(ours, files), peak(peer, files)], ([], [])
    takes = seconds(peer, files, greatest)[1]
    spent = 0
    while len(times[0]) < FEWEST or (len(times[0]) < MOST and spent < SECONDS):
        took, is_well = seconds(ours, files, greatest)
        if not is_well:
            sys.exit(f"measure.py: {ours[0]} ended with a status above {greatest} on {files[0]}{' or a later tile' if files[1:] else ''}")
        times[0].append(took)
        times[1].append(seconds(peer, files, greatest)[0] if takes else 0)
        spent = sum(map(sum, times))
    medians = [statistics.median(it) for it in times]
    return (medians[0], medians[1] if takes else None, peaks[0], peaks[1] if takes else None, len(times[0]))


def print_row(cells):
    print(f"| {' | '.join(cells)} |", flush=True)


def main():
    reader = argparse.ArgumentParser()
    reader.add_argument("command", type=shlex.split)
    reader.add_argument("peer", type=shlex.split)
    reader.add_argument("files", nargs="+")
    reader.add_argument("--tiles")
    said = reader.parse_args()
    ours, peer = (os.path.basename(it[0]) for it in (said.command, said.peer))
    rows = [(os.path.basename(it), [it], 0) for it in said.files]
    tiles = sorted(glob.glob(f"{said.tiles}/*.mvt")) if said.tiles else []
    rows += [(f"{len(tiles)} real tiles, one run each", tiles, 1)] * bool(tiles)
    heads = ["Input", "Bytes", f"{ours}, s", f"{peer}, s", f"{ours} / {peer}"]
    heads += [f"{ours}, ms a MiB", f"{ours}, peak MiB", f"{peer}, peak MiB", "Runs"]
    print_row(heads)
    print_row(["---"] * len(heads))
    for name, files, greatest in rows:
        size = sum(map(os.path.getsize, files))
        took, peer_took, used, peer_used, runs = measure(said.command, said.peer, files, greatest)
        # (over small files the time is that of starting processes)
        each = f"{1000 * took / (size / MIB):.2f}" if len(files) == 1 and size >= MIB else "-"
        cells = [name, f"{size:,}", f"{took:.3f}"]
        cells += ["refused", "-"] if peer_took is None else [f"{peer_took:.3f}", f"{took / peer_took:.2f}"]
        cells += [each, f"{used:.1f}", "-" if peer_used is None else f"{peer_used:.1f}", str(runs)]
        print_row(cells)


if __name__ == "__main__":
    main()

#!/usr/bin/env python3
"""Runs a command, and then says how long it took, by the clock and of the processors, and the most memory that it and
all that it started held at one time.

usage: peak.py [--crates] COMMAND..

With --crates it also prints, for each crate that the command had checked, from which second to which second after its
start this took, and how many seconds of a processor: the proof, the tests and the must-fail edits. All of this is
sampled each second, so a shorter peak is missed, and up to a second of each process. The status is the command's own.
"""
import argparse
import ctypes
import os
import re
import resource
import subprocess
import sys
import time

MIB = 1 << 20
PAGE = os.sysconf("SC_PAGE_SIZE")
TICKS = os.sysconf("SC_CLK_TCK")
BECOME_SUBREAPER = 36
# Between two looks at shared pages, which slow processes of many pages down.
SECONDS_BETWEEN_LOOKS = 10
# what the gate does with a crate
PARTS = ("proof", "tests", "edits")


def text(path):
    # (a process may end at any moment)
    try:
        with open(path) as it:
            return it.read()
    except OSError:
        return ""


def below(top):
    """The processes that this one started, and those that they started, each with its resident pages and its ticks."""
    parts = {it: text(f"/proc/{it}/stat").rpartition(")")[2].split() for it in os.listdir("/proc") if it.isdigit()}
    children = {}
    for process, it in parts.items():
        if it:
            children.setdefault(it[1], []).append(process)
    found, left = {}, [str(top)]
    while left:
        for it in children.get(left.pop(), []):
            found[it] = int(parts[it][21]), int(parts[it][11]) + int(parts[it][12])
            left.append(it)
    return found


def shared_once(process, resident):
    """The bytes of a process where a page of several processes counts in equal parts among them."""
    found = re.search(r"^Pss:\s+(\d+) kB", text(f"/proc/{process}/smaps_rollup"), re.M)
    return int(found[1]) * 1024 if found else resident


def task(process):
    """The crate that a process of the prover checks, and which of PARTS that is; None for another process."""
    words = text(f"/proc/{process}/cmdline").split("\0")
    if "--crate-name" not in words:
        return None
    try:
        folder = os.path.basename(os.readlink(f"/proc/{process}/cwd"))
    except OSError:
        return None
    # (`rt` checks each edit in a folder of that name)
    part = "edits" if folder.startswith("rt-edit-") else "tests" if "--test" in words else "proof"
    return words[words.index("--crate-name") + 1], part


def print_crates(spans, ticks):
    """Prints the first and the last second of each part of each crate, and its seconds of a processor."""
    used = {}
    for (part, _), it in ticks.items():
        used[part] = used.get(part, 0) + it / TICKS
    print(f"{'crate':<14}" + "".join(f"{it + ', s (of a processor)':>28}" for it in PARTS))
    for crate in dict.fromkeys(crate for crate, _ in spans):
        cells = [spans.get((crate, it), ()) and (*spans[crate, it], used[crate, it]) for it in PARTS]
        print(f"{crate:<14}" + "".join(f"{f'{it[0]:.0f} to {it[1]:.0f} ({it[2]:.0f})' if it else '-':>28}" for it in cells))


reader = argparse.ArgumentParser(usage="peak.py [--crates] COMMAND..")
reader.add_argument("--crates", action="store_true")
reader.add_argument("command", nargs=argparse.REMAINDER)
said = reader.parse_args()
# A process whose parent has ended then stays below this one.
ctypes.CDLL(None).prctl(BECOME_SUBREAPER, 1, 0, 0, 0)
before, most, most_resident, spans, ticks = time.monotonic(), 0, 0, {}, {}
looked = -SECONDS_BETWEEN_LOOKS
command = subprocess.Popen(said.command)
while True:
    found = below(os.getpid())
    resident = {process: pages * PAGE for process, (pages, _) in found.items()}
    now = time.monotonic() - before
    for process in found if said.crates else ():
        it = task(process)
        if it:
            spans[it] = spans.get(it, (now, now))[0], now
            ticks[it, process] = found[process][1]
    most_resident = max(most_resident, sum(resident.values()))
    if sum(resident.values()) > most and now - looked >= SECONDS_BETWEEN_LOOKS:
        most = max(most, sum(shared_once(*it) for it in resident.items()))
        looked = now
    try:
        status = command.wait(timeout=1)
        break
    except subprocess.TimeoutExpired:
        pass
took = time.monotonic() - before
if said.crates:
    print_crates(spans, ticks)
used = resource.getrusage(resource.RUSAGE_CHILDREN)
print(f"wall time: {took:.1f} s, processor time: {used.ru_utime + used.ru_stime:.0f} s")
print(f"peak memory, all processes together: {most / MIB:.0f} MiB, a shared page counted once ({most_resident / MIB:.0f} MiB as the sum of resident sets)")
sys.exit(status if status >= 0 else 128 - status)

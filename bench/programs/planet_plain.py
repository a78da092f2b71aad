#!/usr/bin/env python3
"""Judges all tiles of an MBTiles file in one process, by the modules that the workers of mvtgate-planet run, and confirms the
faults: planet_plain.py FILE. It writes no journal and no report. The last line is 'N tiles, M with a fault'."""
from __future__ import annotations

import sys

import mvtgate
from mvtgate.planet.sources import open_source
from mvtgate.planet.work import Task, confirm, judge

PARTITION = 4000


def main() -> None:
    source = open_source(sys.argv[1])
    tasks = {it.zoom: Task(source.path, source.stamp(), it, "polygon", False, mvtgate.version()) for it in source.survey()}
    tiles = faulty = 0
    for partition in source.partitions(0, PARTITION):
        judged = judge(tasks[partition.zoom], partition)
        if judged.faults:
            _, answers = confirm(tasks[partition.zoom], judged)
            assert all(answers)
        tiles += partition.tiles
        faulty += len(judged.faults)
    print(f"{tiles} tiles, {faulty} with a fault")


if __name__ == "__main__":
    main()

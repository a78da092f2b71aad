"""The report of a run: one HTML file that works offline.

    report = Report(run, sources)
    for judged in journal:
        report.add(judged)
    report.write("report.html", seconds=3600.0, workers=16)

It has tables, a map of the tiles, and pictures of the first faults, which its script draws by the module that draws the page's.
"""
from __future__ import annotations

from .parts import ReportPartsMissing, require_parts
from .pictures import SourceLike
from .report import Report

__all__ = ["Report", "ReportPartsMissing", "SourceLike", "require_parts"]

"""summary.json, for programs, and a report for CI servers: JUnit's XML with a case for each zoom."""
from __future__ import annotations

import json
import os
from typing import TYPE_CHECKING, Any, Dict, Iterator, Tuple
from xml.sax.saxutils import escape, quoteattr

from .. import _words
from ..checking.names import on_one_line
from .outputs import SUMMARY, Counts
from .settings import Settings
from .whole_file import WholeFile

if TYPE_CHECKING:
    from .report import Report
    from .report.tile_map import ZoomCells


def write_summary(settings: Settings, run: Dict[str, Any], counts: Counts, report: Report, seconds: float) -> None:
    """Writes both, the second where it is asked for."""
    with WholeFile(os.path.join(settings.output, SUMMARY)) as file:
        file.write(f"{json.dumps(summary_of(run, counts, report, seconds), indent=1)}\n")
    if settings.junit is not None:
        with WholeFile(settings.junit) as file:
            for text in _junit(report, counts):
                file.write(text)


def summary_of(run: Dict[str, Any], counts: Counts, report: Report, seconds: float) -> Dict[str, Any]:
    """What a run has come to."""
    it: Dict[str, Any] = {
        **{key: run[key] for key in ("version", "profile", "all", "advice", "began")},
        "sources": [{key: source[key] for key in ("path", "kind", "tiles")} for source in run["sources"]],
        "seconds": round(seconds, 3),
        "tiles": counts.tiles,
        "valid": counts.valid,
        "faulty": counts.faulty,
        "faults": counts.faults,
        "failed": counts.failed,
        "unconfirmed": counts.unconfirmed,
        "codes": {str(code): tiles for code, tiles in sorted(report.counts.codes())},
        "zooms": [_zoom(run, source, cells) for (source, _), cells in report.map.zooms.items()],
    }
    if report.changes is not None:
        it["mended"] = vars(report.changes.totals)
    if report.difference is not None:
        judged = counts.tiles - report.totals.reused - counts.failed
        it["since"] = {"run": report.difference.folder, "judged": judged, **report.difference.counts}
    return it


def _zoom(run: Dict[str, Any], source: int, cells: ZoomCells) -> Dict[str, Any]:
    numbers = {"tiles": cells.tiles, "faulty": cells.faulty, "failed": cells.unjudged}
    return {"source": run["sources"][source]["path"], "zoom": cells.extent.zoom, **numbers}


def _junit(report: Report, counts: Counts) -> Iterator[str]:
    zooms = report.map.zooms
    failures, errors = (sum(bool(number) for number in it) for it in zip(*((it.faulty, it.unjudged and not it.faulty) for it in zooms.values())))
    numbers = f'tests="{len(zooms)}" failures="{failures}" errors="{errors}" skipped="0"'
    yield f'<?xml version="1.0" encoding="UTF-8"?>\n<testsuites {numbers}>\n<testsuite name="mvtgate-planet" {numbers}>\n'
    yield from (_case(report, key, cells) for key, cells in zooms.items())
    yield "</testsuite>\n</testsuites>\n"


def _case(report: Report, key: Tuple[int, int], cells: ZoomCells) -> str:
    """A zoom of a source: it fails where a tile has a fault, and is an error where one couldn't be judged."""
    source, zoom = key
    path = on_one_line(str(report.run["sources"][source]["path"]))
    case = f"<testcase classname={quoteattr(path)} name={quoteattr(f'zoom {zoom}')}"
    if cells.faulty:
        title = _words.words_of_fault(cells.worst)["title"]
        message = f"{cells.faulty} of {cells.tiles} tiles have a fault; the worst is {cells.worst}: {title}"
        return f'{case}><failure type="{cells.worst}" message={quoteattr(message)}>{escape(message)}</failure></testcase>\n'
    if cells.unjudged:
        message = f"{cells.unjudged} of {cells.tiles} tiles couldn't be judged"
        return f'{case}><error type="not judged" message={quoteattr(message)}/></testcase>\n'
    return f"{case}/>\n"

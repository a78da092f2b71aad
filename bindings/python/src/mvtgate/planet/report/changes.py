"""What the report shows of tiles that were mended: how many, and the largest changes in pictures."""
from __future__ import annotations

from itertools import chain
from typing import TYPE_CHECKING, Any, Dict, List, Optional, Tuple

from markupsafe import Markup

from ..geometry import Position
from ..mending.changes import Change, Changes, Rings, Totals
from .texts import counted, cut
from .views import source_names

if TYPE_CHECKING:
    from .report import Report

# positions of a picture, and units of the grid that it shows at least
_MOST_POSITIONS, _LEAST_VIEW = 20_000, 12

View = Dict[str, Any]


def changes_of(report: Report) -> Optional[View]:
    """None where the tiles weren't to be mended."""
    if report.changes is None:
        return None
    return {
        "sentence": _sentence(report.changes.totals),
        "largest": [_change_view(report, report.changes, it) for it in report.changes.largest],
    }


def _sentence(totals: Totals) -> str:
    if not totals.tiles and not totals.staying:
        return "No tile was refused."
    said = [f"Of {counted(totals.tiles + totals.staying, 'tile', 'tiles')} with a fault {totals.tiles:,} {'was' if totals.tiles == 1 else 'were'} mended"]
    if totals.tiles:
        said[0] += f", in {counted(totals.mended, 'feature', 'features')}"
    if totals.dropped:
        said.append(f"{counted(totals.dropped, 'feature was', 'features were')} left out")
    said.append(f"{totals.staying:,} {'stays' if totals.staying == 1 else 'stay'} as {'it was' if totals.staying == 1 else 'they were'}")
    return f"{'; '.join(said)}."


def _change_view(report: Report, changes: Changes, it: Change) -> View:
    line, place = it.line, it.place
    rings = changes.rings_of(it, report.opened[place.source]) if report.opened else None
    picture, reason = _picture(rings)
    layer = line["layer"]
    return {
        "tile": f"{place.zoom}/{place.column}/{place.row}",
        "source": source_names(report)[place.source],
        "layer": {"name": "no layer" if layer is None else cut(layer), "is_name": layer is not None},
        "feature": line["feature"],
        "feature_id": line["feature_id"],
        "words": _words(line),
        "picture": picture,
        "reason": reason,
    }


def _words(line: Dict[str, Any]) -> str:
    if line["what"] == "dropped":
        return "left out"
    before, after = line["area_before"], line["area_after"]
    return f"area {before:,.1f} before, {after:,.1f} after, in square units of the tile's grid"


def _picture(rings: Optional[Tuple[Rings, Rings]]) -> Tuple[Optional[View], str]:
    """What is drawn, or else why nothing is."""
    if rings is None:
        return None, "No picture: the tile couldn't be read again as it was judged."
    before, after = rings
    if sum(map(len, before)) + sum(map(len, after)) > _MOST_POSITIONS:
        return None, f"No picture: the feature has more than {_MOST_POSITIONS:,} positions."
    if not before:
        return None, "No picture: the feature has no position."
    left, top, side = _seen(before, after)
    box = Markup('x="{0}" y="{1}" width="{2}" height="{2}"').format(left, top, side)
    return {"view": f"{left} {top} {side} {side}", "box": box, "before": _path(before), "after": _path(after)}, ""


def _seen(before: Rings, after: Rings) -> Tuple[int, int, int]:
    """Left, top and side of the square that is shown: around the positions that only one of them has."""
    first, second = set(chain(*before)), set(chain(*after))
    different: List[Position] = sorted(first ^ second) or sorted(first)
    across, down = [x for x, _ in different], [y for _, y in different]
    width, height = max(across) - min(across), max(down) - min(down)
    side = max(_LEAST_VIEW, max(width, height) * 3 // 2)
    return (min(across) + max(across) - side) // 2, (min(down) + max(down) - side) // 2, side


def _path(rings: Rings) -> str:
    return "".join("M" + "L".join(f"{x} {y}" for x, y in ring) + "Z" for ring in rings)

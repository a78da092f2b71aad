"""What the template shows, section by section."""
from __future__ import annotations

import json
from typing import TYPE_CHECKING, Any, Dict, List, Optional, Sequence

from ..._advice import Advice
from ..._faults import Fault
from ..._words import words_of_advice, words_of_fault, words_of_format
from ..records import Partition, Place
from .classes import CLASSES, class_of
from .counts import Label
from .firsts import Found
from .limits import FIRST_LAYERS, PICTURED, WORST_ROWS
from .pictures import Picture, Pictures
from .texts import capital, counted, cut, moment_text, rate_text, readable, share_text, size_text, time_text

if TYPE_CHECKING:
    from .report import Duration, Report
    from .tile_map import ZoomCells

View = Dict[str, Any]

_CONFIRMED = {True: "yes", False: "no", None: "not asked"}


def tile_name(place: Place) -> str:
    """A tile's place as addresses have it, with its row from the north."""
    return f"{place.zoom}/{place.column}/{place.row}"


def paths_of(report: Report) -> List[str]:
    """The paths of the sources."""
    return [readable(str(it["path"])) for it in report.run["sources"]]


def source_names(report: Report) -> List[str]:
    """The sources as the tables name them: empty where there is just one."""
    paths = paths_of(report)
    return paths if len(paths) > 1 else [""] * len(paths)


def overview_of(report: Report, duration: Duration) -> View:
    """The verdict on all tiles, the figures of the run, and its sources."""
    totals, run = report.totals, report.run
    sources = paths_of(report)
    return {
        "title": sources[0].rstrip("/").rpartition("/")[2] if len(sources) == 1 else counted(len(sources), "source", "sources"),
        "state": "fault" if totals.faulty else "unreadable" if totals.unjudged or not totals.tiles else "valid",
        "verdict": _verdict(report),
        "sentences": _sentences(report),
        "figures": [
            ("tiles", "Tiles", f"{totals.tiles:,}", ""),
            ("valid", "Valid", f"{totals.valid:,}", share_text(totals.valid, totals.tiles)),
            ("faulty", "With a fault", f"{totals.faulty:,}", share_text(totals.faulty, totals.tiles)),
            ("unjudged", "Not judged", f"{totals.unjudged:,}", share_text(totals.unjudged, totals.tiles)),
            ("rate", "Tiles a second", rate_text(totals.tiles, duration.seconds), f"in {time_text(duration.seconds)}"),
        ],
        "measures": [
            ("seconds", "Clock time", time_text(duration.seconds)),
            ("processor", "Processor time", time_text(totals.seconds)),
            ("workers", "Workers", f"{duration.workers:,}"),
            ("unpacked", "Bytes judged", size_text(totals.unpacked)),
            ("packed", "Bytes stored", size_text(totals.packed)),
            ("profile", "Profile", str(run["profile"])),
            *([("faults", "Faults in all", f"{totals.faults:,}")] if report.has_all else []),
            ("confirmed", "Faults confirmed", _confirmed_text(report)),
            ("began", "Begun", moment_text(str(run["began"]))),
            ("version", "mvtgate", str(run["version"])),
        ],
        "sources": [
            {"path": path, "kind": it["kind"], "tiles": it["tiles"], "zooms": _zooms_text(it)}
            for path, it in zip(sources, run["sources"])
        ],
    }


def _verdict(report: Report) -> str:
    totals = report.totals
    if not totals.tiles:
        return "There are no tiles"
    if totals.faulty:
        return f"{totals.faulty:,} of {counted(totals.tiles, 'tile', 'tiles')} {'is' if totals.faulty == 1 else 'are'} not valid"
    if totals.unjudged:
        return f"{counted(totals.unjudged, 'tile', 'tiles')} of {totals.tiles:,} couldn't be judged"
    return "The tile is valid" if totals.tiles == 1 else f"All {totals.tiles:,} tiles are valid"


def _sentences(report: Report) -> List[str]:
    totals, said = report.totals, []
    if totals.faulty and totals.unjudged:
        said.append(f"{counted(totals.unjudged, 'further tile', 'further tiles')} couldn't be judged.")
    if totals.refuted:
        said.append(
            f"The separate checker doesn't confirm {counted(totals.refuted, 'fault', 'faults')}. "
            "That is a mistake of the gate: please report it."
        )
    elif totals.faulty and not totals.unasked:
        said.append(f"The separate checker confirms {'the first fault of each tile' if report.has_all else 'each fault'}.")
    if totals.tiles and totals.tiles == totals.valid:
        said.append(f"Each keeps every rule of the gate, by the profile {report.run['profile']}.")
    return said


def _confirmed_text(report: Report) -> str:
    totals = report.totals
    if not totals.faulty:
        return "none to confirm"
    parts = [f"{totals.confirmed:,}"]
    parts += [f"{totals.refuted:,} not confirmed"] if totals.refuted else []
    parts += [f"{totals.unasked:,} not asked"] if totals.unasked else []
    return ", ".join(parts)


def _zooms_text(source: Dict[str, Any]) -> str:
    zooms = sorted(it["zoom"] for it in source["zooms"])
    if not zooms:
        return "no zoom"
    return f"zoom {zooms[0]}" if len(zooms) == 1 else f"zooms {zooms[0]} to {zooms[-1]}"


def codes_of(report: Report, pictures: Pictures) -> List[View]:
    """The codes that were found, with their layers and first tiles."""
    tiles = dict(report.counts.codes())
    # (those of which no tile has its first fault)
    tiles.update((code, 0) for code, _ in report.all_counts.codes() if code not in tiles)
    return [_code_view(report, code, count, pictures) for code, count in tiles.items()]


def _code_view(report: Report, code: int, tiles: int, pictures: Pictures) -> View:
    listed = report.firsts.of(code)
    words = words_of_fault(code)
    layers = _layers_view(report, code)
    shown = layers if len(layers) <= FIRST_LAYERS + 1 else layers[:FIRST_LAYERS]
    return {
        "code": code,
        "class": class_of(code).name,
        "title": words["title"],
        "meaning": words["meaning"],
        "cause": capital(words["cause"]),
        "remedy": capital(words["remedy"]),
        "tiles": tiles,
        "faults": report.all_counts.of(code).total(),
        "layers": layers,
        "first_layers": shown,
        "more_layers": len(layers) - len(shown),
        "more_tiles": tiles - sum(it["tiles"] for it in shown),
        "more_faults": sum(it["faults"] for it in layers[len(shown) :]),
        "found": [_found_view(report, it, picture, at) for at, (it, picture) in enumerate(zip(listed, pictures.of(listed)))],
        "pictured": PICTURED,
    }


def _layers_view(report: Report, code: int) -> List[View]:
    """The layers of a code: those of tiles by their first fault, and then those that only further faults are in."""
    tiles, faults = dict(report.counts.layers(code)), dict(report.all_counts.layers(code))
    labels = [*tiles, *(it for it in faults if it not in tiles)]
    return [_layer_view(it, tiles.get(it, 0), faults.get(it, 0)) for it in labels]


def _layer_view(label: Label, tiles: int, faults: int = 0) -> View:
    return {"name": label.text, "is_name": label.is_name, "tiles": tiles, "faults": faults}


def _layer_of(found: Found) -> View:
    return _layer_view(Label("none", False) if found.finding.layer is None else Label(found.finding.layer), 1)


def _found_view(report: Report, found: Found, picture: Optional[Picture], at: int) -> View:
    place, finding = found.place, found.finding
    fault = Fault.from_text(json.dumps(finding.fault))
    return {
        "id": f"tile-{fault.code}-{at}",
        "tile": tile_name(place),
        "tms_row": place.tms_row,
        "source": source_names(report)[place.source],
        "layer": _layer_of(found),
        "feature_id": finding.feature_id,
        "format": "" if finding.format is None else words_of_format(finding.format)["title"],
        "size": finding.size,
        "seconds": finding.seconds,
        "confirmed": _CONFIRMED[finding.confirmed],
        "sentence": fault.sentence,
        "place": fault.place,
        "text": fault.text,
        "picture": picture,
        "zoom": place.zoom,
        "column": place.column,
        "row": place.row,
        "source_number": place.source,
    }


def formats_of(report: Report) -> List[View]:
    """The other formats, the most frequent first, with the words for them and the first tiles."""
    names = source_names(report)
    ordered = sorted(report.formats.counts.items(), key=lambda it: (-it[1], it[0]))
    return [
        {
            **words_of_format(name),
            "name": name,
            "tiles": tiles,
            "places": [_place_view(names, it) for it in report.formats.firsts.of(name)],
        }
        for name, tiles in ordered
    ]


def zooms_of(report: Report) -> List[View]:
    """The table beside the map."""
    names = source_names(report)
    return [_zoom_view(source, names[source], cells) for (source, _), cells in report.map.zooms.items()]


def _zoom_view(number: int, source: str, cells: ZoomCells) -> View:
    extent = cells.extent
    return {
        "source": source,
        "source_number": number,
        "zoom": extent.zoom,
        "tiles": cells.tiles,
        "faulty": cells.faulty,
        "unjudged": cells.unjudged,
        "worst": cells.worst,
        "worst_title": words_of_fault(cells.worst)["title"] if cells.worst else "",
        "worst_class": class_of(cells.worst).name if cells.worst else "",
    }


def classes_of(report: Report) -> List[View]:
    """The classes of codes for the legend, from the worst one, with the number of tiles."""
    counts = {it.name: 0 for it in CLASSES}
    for code, tiles in report.counts.codes():
        counts[class_of(code).name] += tiles
    return [{"name": it.name, "label": it.label, "first": it.first, "tiles": counts[it.name]} for it in CLASSES]


def unjudged_of(report: Report) -> List[View]:
    """The reasons for which tiles weren't judged, with the places of the first ones."""
    names = source_names(report)
    ordered = sorted(report.unjudged.counts.items(), key=lambda it: (not it[0].is_name, -it[1], it[0]))
    return [
        {
            "reason": label.text,
            "is_name": label.is_name,
            "tiles": tiles,
            "places": [_place_view(names, it) for it in report.unjudged.firsts.of(label)],
            "partitions": [_partition_view(report, it) for it in report.unjudged.partitions.of(label)],
        }
        for label, tiles in ordered
    ]


def _place_view(names: Sequence[str], place: Place) -> View:
    return {"tile": tile_name(place), "source": names[place.source]}


def _partition_view(report: Report, partition: Partition) -> View:
    box = report.map.box_of(partition)
    return {
        "zoom": partition.zoom,
        "first": box.first_column,
        "last": box.last_column,
        "tiles": partition.tiles,
        "source": source_names(report)[partition.source],
    }


def slowest_of(report: Report) -> List[View]:
    """The tiles that took the longest, the slowest first."""
    names = source_names(report)
    return [
        {**_place_view(names, place), "seconds": timed.seconds, "size": timed.size} for place, timed in report.slowest.tiles
    ]


def advice_of(report: Report) -> List[View]:
    """The kinds of advice, the most frequent first."""
    names = source_names(report)
    ordered = sorted(report.advice.counts.items(), key=lambda it: (-it[1], it[0]))
    return [
        {
            "kind": kind,
            "count": count,
            **words_of_advice(kind),
            "places": [
                {**_place_view(names, place), "sentence": Advice(**members).sentence}
                for place, members in report.advice.firsts.of(kind)
            ],
        }
        for kind, count in ordered
    ]


def rows_of(report: Report) -> View:
    """The rows of the data that break the most tiles."""
    names = source_names(report)
    return {
        "count": report.rows.count,
        "nameless": report.rows.nameless,
        "worst": [
            {
                "source": names[it.source],
                "layer": _layer_view(Label(cut(it.layer)), 0),
                "feature_id": it.feature_id,
                "tiles": it.tiles,
                "zooms": f"{it.zooms[0]}" if len(it.zooms) == 1 else f"{len(it.zooms)}, from {it.zooms[0]} to {it.zooms[-1]}",
                "code": it.code,
                "class": class_of(it.code).name,
                "first_tile": it.first_tile,
            }
            for it in report.rows.worst(WORST_ROWS)
        ],
    }


def difference_of(report: Report) -> Optional[View]:
    """What is new since an earlier run. None where there is none."""
    it, totals = report.difference, report.totals
    if it is None:
        return None
    names = source_names(report)
    sources = {str(source["path"]): name for source, name in zip(report.run["sources"], names)}
    kinds = (
        ("new", "with a fault that had none"),
        ("still", "that still have one"),
        ("mended", "that have none any more"),
        ("gone", "that are gone"),
        ("unjudged", "that had one, and couldn't be judged"),
    )
    return {
        "folder": readable(it.folder),
        "judged": totals.tiles - totals.reused - totals.unjudged,
        "failed": totals.unjudged,
        "kinds": [
            {
                "name": name,
                "words": words,
                "tiles": it.counts[name],
                "places": [{"tile": line["tile"], "source": sources.get(line["source"], ""), "code": line["code"]} for line in it.firsts[name]],
            }
            for name, words in kinds
        ],
    }


def map_data(report: Report, codes: Sequence[View]) -> View:
    """What the script draws the map from."""
    names = source_names(report)
    zooms = [
        {"source": source, "sourceName": names[source], **cells.members()} for (source, _), cells in report.map.zooms.items()
    ]
    return {
        "classes": [{"name": it.name, "first": it.first} for it in CLASSES],
        "titles": {str(it["code"]): it["title"] for it in codes},
        "zooms": zooms,
        "pictures": [
            {"id": it["id"], "source": it["source_number"], "zoom": it["zoom"], "column": it["column"], "row": it["row"]}
            for code in codes
            for it in code["found"]
            if it["picture"] is not None and it["picture"].data is not None
        ],
    }

"""The sample tiles, and the lines that `mvtgate check` may write for each."""
from __future__ import annotations

import base64
import json
import pathlib
from typing import Any, Dict, List

TILES = pathlib.Path(__file__).resolve().parents[3] / "tiles"
YES = '{"ok":true}'
PROFILES = ("polygon", "feature")
NAMES = sorted(it.stem for it in (TILES / "expected").glob("*.check"))
WORDS: Dict[str, Any] = json.loads((TILES.parent / "bindings/faults.json").read_text())


def path_of(name: str) -> pathlib.Path:
    return TILES / f"{name}.mvt"


def accepted(name: str, profile: str) -> List[str]:
    """The lines that a tile may get by a profile."""
    of_profile = TILES / f"expected/{name}.check_feature"
    lines = of_profile if profile == "feature" and of_profile.exists() else TILES / f"expected/{name}.check"
    return lines.read_text().splitlines()


# of one layer each, with one fault, which is the only one that their features have; the first is valid by `polygon`
FAULTY_LAYERS = ("polygon_on_polygon", "version_one", "odd_tags", "no_step", "ring_without_area", "crossing_edges", "hole_outside", "hole_in_hole")
NAME_OF_LAYER = b"\n\x01a"  # the field


def faulty_layers() -> bytes:
    """These layers as one tile, in which all have different names."""
    parts = [path_of(name).read_bytes() for name in FAULTY_LAYERS]
    return b"".join(it.replace(NAME_OF_LAYER, b"\n\x01" + bytes([ord("b") + at]), 1) for at, it in enumerate(parts))


def faults_of_layers(profile: str) -> List[Dict[str, Any]]:
    """The members of that tile's faults, in order: those of layers come before those of features."""
    lines = [accepted(name, profile)[0] for name in FAULTY_LAYERS]
    faults = [{**json.loads(line), "layer": at} for at, line in enumerate(lines) if line != YES]
    return sorted(faults, key=lambda it: "feature" in it)


def link_of(tile: bytes, profile: str = "polygon") -> str:
    """The part of an address after # that has a tile in it."""
    text = base64.urlsafe_b64encode(tile).decode().rstrip("=")
    return f"#tile={text}" + ("&profile=feature" if profile == "feature" else "")

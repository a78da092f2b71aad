"""The sample tiles of tiles/, and what is expected of them."""
from __future__ import annotations

import importlib.machinery
import importlib.util
import json
import pathlib
import sys
from dataclasses import dataclass
from typing import Any, Dict, List, Optional

import mvtgate

TOP = pathlib.Path(__file__).resolve().parents[3]
PROFILES = ("polygon", "feature")
_YES = '{"ok":true}'

Fault = Optional[Dict[str, Any]]


def _script(path: pathlib.Path) -> Any:
    """A script without a suffix as a module."""
    loader = importlib.machinery.SourceFileLoader(path.name, str(path))
    spec = importlib.util.spec_from_loader(path.name, loader)
    assert spec
    module = importlib.util.module_from_spec(spec)
    loader.exec_module(module)
    return module


# the shapes that cost much
sys.path.insert(0, str(TOP / "bench/makers"))
shapes = _script(TOP / "bench/makers/shapes.py")
# (which reads a tile by itself)
_dump_of = _script(TOP / "tiles/check_folder").dump_of


@dataclass(frozen=True)
class Sample:
    """A tile, and by the profile the faults of which `check` may tell one: None where the tile is valid."""

    name: str
    tile: bytes
    faults: Dict[str, List[Fault]]

    def is_valid(self, profile: str) -> bool:
        return self.faults[profile] == [None]

    def quick_fault(self, profile: str) -> Fault:
        """What the library's quick call says by itself."""
        fault = mvtgate.check(self.tile, mvtgate.Profile[profile.upper()], quick=True)
        return fault.members if fault else None

    def quick_faults(self, profile: str) -> List[Fault]:
        """The list of its quick call."""
        return [it.members for it in mvtgate.faults(self.tile, mvtgate.Profile[profile.upper()], quick=True)]

    def confirms(self, profile: str, fault: Fault) -> bool:
        """Whether a fault is true of it, by the separate checker."""
        return mvtgate.confirm(self.tile, json.dumps(fault), mvtgate.Profile[profile.upper()])

    def mended(self, profile: str, drop: bool) -> Optional[bytes]:
        """What the library makes of it, or None where it is refused."""
        try:
            return mvtgate.mend(self.tile, mvtgate.Profile[profile.upper()], drop=drop).tile
        except mvtgate.Refused:
            return None

    def dump(self) -> Any:
        """What the tile holds, or its wire fault."""
        first = self.faults["polygon"][0]
        return first if first and first["code"] < 200 else json.loads(_dump_of(self.tile))

    def is_right(self, profile: str, fault: Fault) -> bool:
        """Whether a quick verdict may be this: one of those that are expected, or by `feature` another meeting of the feature of one."""
        expected = self.faults[profile]
        if fault in expected:
            return True
        if profile == "polygon" or fault is None or fault["code"] != 504:
            return False
        return any(it is not None and all(it.get(key) == fault[key] for key in ("layer", "feature")) for it in expected)


def _sample(told: pathlib.Path) -> Sample:
    by_feature = told.with_suffix(".check_feature")
    texts = {"polygon": told, "feature": by_feature if by_feature.exists() else told}
    faults = {
        profile: [None if line == _YES else json.loads(line) for line in path.read_text().splitlines()] for profile, path in texts.items()
    }
    return Sample(told.stem, (TOP / "tiles" / f"{told.stem}.mvt").read_bytes(), faults)


SAMPLES = [_sample(it) for it in sorted((TOP / "tiles/expected").glob("*.check"))]

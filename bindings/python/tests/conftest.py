"""Sample tiles of the repository, with the lines that are expected for them."""
from __future__ import annotations

import importlib.machinery
import importlib.util
import json
import os
import pathlib
from dataclasses import dataclass, field
from typing import Any, Dict, List, Optional

import mvtgate
from mvtgate import Profile

TOP = pathlib.Path(__file__).resolve().parents[3]
VERSION = (TOP / "VERSION").read_text().strip()
YES = '{"ok":true}'


def load(path: pathlib.Path) -> Any:
    """A script of the repository, as a module."""
    loader = importlib.machinery.SourceFileLoader(path.name, str(path))
    spec = importlib.util.spec_from_loader(path.name, loader)
    assert spec is not None
    module = importlib.util.module_from_spec(spec)
    loader.exec_module(module)
    return module


@dataclass(frozen=True)
class Sample:
    """A tile, and the lines of `check` that are accepted by each profile. Where they are given, those of dump and advice."""

    path: pathlib.Path
    lines: Dict[Profile, List[str]] = field(compare=False)
    dump: Optional[str] = field(default=None, compare=False)
    advice: Optional[str] = field(default=None, compare=False)

    @property
    def tile(self) -> bytes:
        return self.path.read_bytes()

    @property
    def is_tile(self) -> bool:
        """Whether the bytes have no wire fault."""
        code: int = json.loads(self.lines[Profile.POLYGON][0]).get("code", 999)
        return code > 200


def samples_of_repository() -> List[Sample]:
    samples = []
    for polygon in sorted((TOP / "tiles/expected").glob("*.check")):
        feature = polygon.with_suffix(".check_feature")
        lines = {Profile.POLYGON: polygon, Profile.FEATURE: feature if feature.exists() else polygon}
        read = {profile: path.read_text().splitlines() for profile, path in lines.items()}
        samples.append(Sample(TOP / f"tiles/{polygon.stem}.mvt", read))
    return samples


def samples_of_folder(folder: pathlib.Path) -> List[Sample]:
    """Tiles with their lines in NAME.json or NAME.check, as tiles/check_folder takes them."""
    samples = []
    for path in sorted(folder.glob("*.mvt")):
        told = path.with_suffix(".json")
        said = json.loads(told.read_text()) if told.exists() else {}
        plain = said.get("check") or path.with_suffix(".check").read_text().splitlines()
        of_feature = path.with_suffix(".check_feature")
        feature = said.get("check_feature") or (of_feature.read_text().splitlines() if of_feature.exists() else None)
        # (the first fault by `feature` may come before that by `polygon`, so it has to be given)
        lines = {Profile.POLYGON: plain, **({Profile.FEATURE: feature} if feature else {})}
        samples.append(Sample(path, lines, said.get("dump"), said.get("advice")))
    return samples


def all_samples() -> List[Sample]:
    """Those of the repository, and of the folders that MVTGATE_FOLDERS names."""
    folders = os.environ.get("MVTGATE_FOLDERS", "").split(os.pathsep)
    return samples_of_repository() + [it for folder in folders if folder for it in samples_of_folder(pathlib.Path(folder))]


SAMPLES = all_samples()


def saw(teeth: int) -> bytes:
    """A valid tile with one polygon: a saw with this many teeth."""
    numbers = [9, 0, 0, (2 * teeth + 1) * 8 + 2]
    for at in range(teeth):
        numbers += [2, 199 if at % 2 else 399, 2, 200 if at % 2 else 400]
    numbers += [0, 2000, 15]
    # (teeth have negative y; the last step goes to a positive one, and the edge that closes the ring has no other)
    payload = b"".join(map(varint, numbers))
    feature = b"\x18\x03\x22" + varint(len(payload)) + payload
    layer = b"\x78\x02\x0a\x01a\x12" + varint(len(feature)) + feature
    return b"\x1a" + varint(len(layer)) + layer


def varint(number: int) -> bytes:
    groups = bytearray()
    while number > 127:
        groups.append(number & 127 | 128)
        number >>= 7
    return bytes([*groups, number])


def check_line(tile: Any, profile: Profile = Profile.POLYGON) -> str:
    """What `mvtgate check` would write."""
    fault = mvtgate.check(tile, profile)
    return YES if fault is None else fault.text

"""The part of a tile's record that the picture of a fault shows."""
from __future__ import annotations

from typing import Any, Dict, List, Mapping, Optional

# JavaScript reads whole numbers of JSON as doubles, which hold these exactly
_LAST_EXACT = 2**53 - 1


def excerpt_of(record: Mapping[str, Any], fault: Mapping[str, Any]) -> Optional[Dict[str, Any]]:
    """What the picture needs of what `dump` says of a tile. None for a wire fault, which is drawn from the bytes alone.

    Lists become objects with just the layer and the feature of the fault, by their numbers. What isn't drawn is left out: of other
    layers their features, and of a feature's layer its keys and values, unless the fault is one of tags.
    """
    code = fault["code"]
    if code < 200:
        return None
    if code < 300:
        return {"layers": [_outline(layer) for layer in record["layers"]]}
    layer = record["layers"][fault["layer"]]
    feature = layer["features"][fault["feature"]]
    is_of_tags = code < 400
    part = {
        **_named(layer),
        "features": {str(fault["feature"]): {**feature, "id": _exact(feature["id"])}},
        "keys": layer["keys"] if is_of_tags else [],
        "values": [{kind: _exact(it) for kind, it in value.items()} for value in layer["values"]] if is_of_tags else [],
    }
    return {"layers": {str(fault["layer"]): part}}


def _named(layer: Mapping[str, Any]) -> Dict[str, Any]:
    return {key: layer[key] for key in ("extent", "name", "version")}


def _outline(layer: Mapping[str, Any]) -> Dict[str, Any]:
    """A layer whose features have nothing but their types."""
    features: List[Dict[str, Any]] = [{"type": it["type"]} for it in layer["features"]]
    return {**_named(layer), "features": features, "keys": [], "values": []}


def _exact(it: Any) -> Any:
    """A number as a text, where JavaScript couldn't hold it."""
    return str(it) if isinstance(it, int) and abs(it) > _LAST_EXACT else it

"""What a picture has to show of a fault: elements with data attributes that name the fault's parts."""
from __future__ import annotations

from fractions import Fraction
from typing import Any, Dict, List

from page import Page

Attributes = Dict[str, str]


def named_by(fault: Dict[str, Any]) -> List[Attributes]:
    """The elements that a fault names, by their attributes."""
    code = fault["code"]
    if code < 200:
        return [element("fault-byte", offset=fault["at"])]
    if code < 300:
        return [element("fault-layer", layer=fault[key]) for key in ("layer", "first", "second") if key in fault]
    if code < 500:
        return [element("fault-number", index=fault["index"])]
    if code < 504:
        return [element("ring", ring=fault["ring"])]
    if code == 504:
        x, y = (str(Fraction(int(fault[it]), int(fault["w"]))) for it in "xy")
        return [element("first-edge", **fault["first"]), element("second-edge", **fault["second"]), element("point", x=x, y=y)]
    vertex = element("vertex", vertex=fault["vertex"])
    if code == 507:
        return [vertex, element("other-polygon", polygon=fault["other"])]
    vertex["ring"] = str(fault["ring"])
    hole = element("hole", ring=fault["ring"])
    return [vertex, hole] if code == 505 else [vertex, hole, element("other-hole", ring=fault["other"])]


def element(role: str, **attributes: object) -> Attributes:
    return {"role": role, **{key: str(it) for key, it in attributes.items()}}


def is_shown(page: Page, fault: Dict[str, Any], host: str = "#picture") -> bool:
    """Whether the picture in this element shows each element that the fault names."""
    shown = page.elements(f"{host} svg [data-role]")
    return all(any(wanted.items() <= it.items() for it in shown) for wanted in named_by(fault))

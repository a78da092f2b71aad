"""The words for faults and advice, from faults.json, and the filling of the places in them."""
from __future__ import annotations

import functools
import json
import math
import pathlib
import re
from typing import Any, Dict, Mapping

_PLACE = re.compile(r"\{([a-z.]+)(?:/([a-z]+))?\}")
_FOLDER = pathlib.Path(__file__).resolve().parent
# (a wheel has it beside this module, a checkout in bindings)
_WORDS = (_FOLDER / "faults.json", _FOLDER.parents[2] / "faults.json")


@functools.lru_cache(maxsize=None)
def words() -> Dict[str, Any]:
    """The whole of faults.json."""
    path = next((it for it in _WORDS if it.exists()), _WORDS[0])
    loaded: Dict[str, Any] = json.loads(path.read_text("utf-8"))
    return loaded


def words_of_fault(code: int) -> Dict[str, str]:
    """Title, sentence and the other words of a code. LookupError for a code that no fault has."""
    found: Dict[str, str] = words()["faults"][str(code)]
    return found


def kinds_of_fault(code: int) -> Dict[str, str]:
    """The keys of a fault's text beside `code`, with what each has. LookupError for a code that no fault has."""
    found: Dict[str, str] = words()["faults"][str(code)]["keys"]
    return found


def kinds_of_scope(scope: str) -> Dict[str, str]:
    """The same for the keys that name the scope of a wire fault. LookupError for a scope that none has."""
    return {match[1]: "number" for match in _PLACE.finditer(words()["scopes"][scope])}


def words_of_format(name: str) -> Dict[str, str]:
    """Title, sentence and remedy of another format. LookupError for a name that none has."""
    found: Dict[str, Any] = words()["formats"][name]
    return {key: found[key] for key in ("title", "sentence", "remedy")}


def words_of_advice(kind: str) -> Dict[str, str]:
    """Title, sentence and the other words of a kind of advice. LookupError for a kind that no advice has."""
    found: Dict[str, str] = words()["advice"][kind]
    return found


def _fraction(above: int, below: int) -> str:
    if below == 0:
        return f"{above}/0"
    divisor = math.gcd(above, below) * (1 if below > 0 else -1)
    above, below = above // divisor, below // divisor
    return str(above) if below == 1 else f"{above}/{below}"


def _field(scope: str, number: int) -> str:
    fields = words()["fields"]
    if number == 0:
        return str(fields["key"])
    name = fields["names"][scope].get(str(number))
    form: str = fields["known"] if name else fields["unknown"]
    return form.replace("{number}", str(number)).replace("{name}", str(name))


def fill(template: str, members: Mapping[str, Any]) -> str:
    """The template with each place filled from the members of a fault's text or an advice (bindings/README.md of the repository
    has the grammar). KeyError where a member is missing."""

    def filled(match: re.Match[str]) -> str:
        name, below = match[1], match[2]
        if below:
            return _fraction(int(members[name]), int(members[below]))
        if name == "scope":
            return fill(words()["scopes"][members["scope"]], members)
        if name == "field":
            return _field(members["scope"], members["field"])
        it: Any = members
        for key in name.split("."):
            it = it[key]
        return str(it)

    return _PLACE.sub(filled, template)

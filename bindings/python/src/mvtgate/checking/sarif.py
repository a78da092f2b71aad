"""The report of a run as SARIF 2.1.0, which code hosts and editors show: a result for each fault, and for each
tile that couldn't be judged."""
from __future__ import annotations

import json
import os
import pathlib
import urllib.parse
from typing import Any, Dict, List

import mvtgate

from .. import _words
from ..planet.sources.pmtiles import is_address
from .answers import Answer
from .counts import Counts
from .lines import PROGRAM
from .report import Report

_SCHEMA = "https://json.schemastore.org/sarif-2.1.0.json"
# rules beside the faults
_NOT_JUDGED, _NOT_CONFIRMED = "not-judged", "not-confirmed"
_OTHER_RULES = {
    _NOT_JUDGED: "Tile that couldn't be judged",
    _NOT_CONFIRMED: "Fault that the separate checker doesn't confirm",
}


def _rules() -> List[Dict[str, Any]]:
    rules: List[Dict[str, Any]] = [
        {
            "id": code,
            "shortDescription": {"text": it["title"]},
            "fullDescription": {"text": it["meaning"]},
            "help": {"text": f"Cause: {it['cause']}\nWhat to do: {it['remedy']}"},
        }
        for code, it in _words.words()["faults"].items()
    ]
    return rules + [{"id": rule, "shortDescription": {"text": title}} for rule, title in _OTHER_RULES.items()]


def _rule_of(answer: Answer) -> str:
    if answer.fault is None:
        return _NOT_JUDGED
    return _NOT_CONFIRMED if answer.confirmed is False else str(answer.fault.code)


def _uri(path: str) -> str:
    """The path as a reference: relative as it was named, or with the scheme of files. An address is one already."""
    if is_address(path):
        return urllib.parse.quote(os.fsencode(path), safe="%/:=&?~#+!$,;'@()*[]")
    if os.path.isabs(path):
        return pathlib.Path(path).as_uri()
    # (a name with a colon would be taken for a scheme)
    return urllib.parse.quote(os.fsencode(os.path.normpath(path)))


def _location(answer: Answer) -> Dict[str, Any]:
    """The file, and the place in it. A tile has no lines, but some readers want the number of one."""
    place = ", ".join(it for it in (answer.place, answer.fault and answer.fault.place) if it)
    location: Dict[str, Any] = {"physicalLocation": {"artifactLocation": {"uri": _uri(answer.file)}, "region": {"startLine": 1}}}
    if place:
        location["logicalLocations"] = [{"fullyQualifiedName": place}]
    return location


class Sarif(Report):
    """Faults, and tiles that couldn't be judged, with their files."""

    def __init__(self, path: str, counts: Counts, profile: str) -> None:
        super().__init__(path, counts)
        self._profile = profile
        self._rules = _rules()
        self._index = {rule["id"]: index for index, rule in enumerate(self._rules)}
        self._is_first = True

    def head(self) -> str:
        driver = {"name": PROGRAM, "version": mvtgate.__version__, "rules": self._rules}
        return f'{{"$schema":{json.dumps(_SCHEMA)},"version":"2.1.0","runs":[{{"tool":{{"driver":{json.dumps(driver)}}},"results":[\n'

    def entry(self, answer: Answer) -> str:
        if answer.is_valid:
            return ""
        rule = _rule_of(answer)
        result: Dict[str, Any] = {
            "ruleId": rule,
            "ruleIndex": self._index[rule],
            "level": "error",
            "message": {"text": answer.sentence},
            "locations": [_location(answer)],
        }
        if answer.fault is not None:
            result["properties"] = {"fault": answer.fault.members, "profile": self._profile}
        comma = "" if self._is_first else ",\n"
        self._is_first = False
        return f"{comma}{json.dumps(result)}"

    def tail(self) -> str:
        is_whole = not self._counts.failed and not self._counts.unconfirmed
        return f'\n],"invocations":[{{"executionSuccessful":{json.dumps(is_whole)}}}]}}]}}\n'

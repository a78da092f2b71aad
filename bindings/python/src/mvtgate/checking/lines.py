"""A line for each answer, for people or as JSON."""
from __future__ import annotations

import json
import os
import sys
from typing import Any, Dict

from .._explain import explanation, reasons
from .answers import Answer
from .names import as_text
from .progress import Bar

PROGRAM = "mvtgate-check"


def as_json(answer: Answer, is_explaining: bool) -> str:
    """The JSON line of an answer."""
    line: Dict[str, Any] = {"file": as_text(answer.file)}
    if answer.place is not None:
        line["tile"] = answer.place
    if answer.is_valid:
        line["valid"] = True
    if answer.error is not None:
        line["error"] = answer.error
    if answer.fault is not None:
        line.update(fault=answer.fault.members, sentence=answer.fault.sentence)
        if answer.format is not None:
            line["format"] = answer.format.name
        if is_explaining:
            line["explanation"] = explanation(answer.fault, answer.format)
    if answer.confirmed is not None:
        line["confirmed"] = answer.confirmed
    if answer.mending is not None:
        line.update(answer.mending.members)
    return json.dumps(line)


def as_words(answer: Answer, is_explaining: bool) -> str:
    """The line of a fault or of a valid tile, and the lines that explain a fault."""
    if answer.fault is None:
        return f"{answer.name}: {answer.sentence}"
    said = {None: "", True: " (confirmed)", False: " (NOT CONFIRMED)"}[answer.confirmed]
    mending = "" if answer.mending is None else f" ({answer.mending.words(answer.fault)})"
    line = f"{answer.name}: {answer.fault.code}: {answer.sentence}{said}{mending}"
    if is_explaining:
        # (the sentence of a format stands in the line)
        told = answer.format and answer.format.sentence
        line += "".join(f"\n    {it}" for it in reasons(answer.fault, answer.format) if it != told)
    return line


def have_errors() -> None:
    """Has a standard error be there, which goes nowhere where it was closed. (`print` would take standard output for it.)"""
    if sys.stderr is None:
        sys.stderr = open(os.devnull, "w")


def tell(text: str) -> None:
    """Writes a line on standard error."""
    print(f"{PROGRAM}: {text}", file=sys.stderr)


class Lines:
    """Where lines are written: faults on standard output, and errors on standard error, or all of it as JSON on standard output."""

    def __init__(self, bar: Bar, is_json: bool, is_explaining: bool, has_valid: bool, is_quiet: bool) -> None:
        self._bar = bar
        self._is_json = is_json
        self._is_explaining = is_explaining
        self._has_valid = has_valid
        self._is_quiet = is_quiet

    def write(self, answer: Answer) -> None:
        """Writes what is to be said of a tile."""
        if answer.is_valid and not self._has_valid:
            return
        with self._bar.aside():
            if self._is_json:
                print(as_json(answer, self._is_explaining))
            elif answer.error is not None:
                tell(f"{answer.name}: {answer.error}")
            elif not self._is_quiet:
                print(as_words(answer, self._is_explaining))

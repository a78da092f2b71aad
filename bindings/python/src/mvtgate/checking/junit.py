"""The report of a run as JUnit's XML, which CI servers show as tests: a case for each tile, or for each fault of it."""
from __future__ import annotations

from xml.sax.saxutils import escape, quoteattr

from .._explain import explanation
from .answers import Answer
from .counts import Counts
from .lines import PROGRAM
from .names import on_one_line
from .report import Report


class Junit(Report):
    """A tile with a fault is a test that failed; one that couldn't be judged, or whose fault wasn't confirmed, is an error."""

    def __init__(self, path: str, counts: Counts, profile: str, has_all: bool) -> None:
        super().__init__(path, counts)
        self._profile = profile
        self._has_all = has_all

    def _name(self, answer: Answer) -> str:
        """The case's name, which no other one has."""
        if self._has_all and answer.fault is not None:
            return f"{answer.name}: {answer.fault.place}"
        return answer.name

    def head(self) -> str:
        it = self._counts
        errors = it.failed + it.unconfirmed
        cases = it.valid + it.failed + it.faults
        numbers = f'tests="{cases}" failures="{it.faults - it.unconfirmed}" errors="{errors}" skipped="0"'
        return f'<?xml version="1.0" encoding="UTF-8"?>\n<testsuites {numbers}>\n<testsuite name="{PROGRAM}" {numbers}>\n'

    def entry(self, answer: Answer) -> str:
        case = f"testcase classname={quoteattr(self._profile)} name={quoteattr(self._name(answer))} file={quoteattr(on_one_line(answer.file))}"
        if answer.is_valid:
            return f"<{case}/>\n"
        if answer.fault is None:
            return f'<{case}><error type="not judged" message={quoteattr(answer.sentence)}/></testcase>\n'
        text = escape(explanation(answer.fault, answer.format))
        if answer.confirmed is False:
            message = quoteattr(f"{answer.fault}, which the separate checker doesn't confirm")
            return f'<{case}><error type="not confirmed" message={message}>{text}</error></testcase>\n'
        message = quoteattr(f"{answer.fault.code}: {answer.sentence}")
        return f'<{case}><failure type="{answer.fault.code}" message={message}>{text}</failure></testcase>\n'

    def tail(self) -> str:
        return "</testsuite>\n</testsuites>\n"

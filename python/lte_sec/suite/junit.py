"""JUnit XML, as builds read it: suites of cases, each passed, failed, in error or skipped.

Its elements and attributes are those of the schema junit-10.xsd, which Jenkins has. What XML 1.0 cannot have becomes a
question mark.
"""
from __future__ import annotations

import re
from collections.abc import Iterable
from pathlib import Path
from typing import NamedTuple
from xml.sax.saxutils import escape, quoteattr

from ..common.options import WrongWords

NO_XML = re.compile("[^\t\n\r\x20-\ud7ff\ue000-\ufffd\U00010000-\U0010ffff]")


class TestCase(NamedTuple):
    """A case: the group and the name that a build shows, `failure`, `error`, `skipped` or nothing where it passed, why,
    where, and what else is said of it."""

    group: str
    name: str
    outcome: str
    why: str = ""
    where: str = ""
    said: str = ""


class Suite(NamedTuple):
    """A suite: its name, when it began, for how many seconds it went, its properties and its cases."""

    name: str
    began: str
    seconds: float
    properties: dict[str, str]
    cases: list[TestCase]

    def count(self, outcome: str) -> int:
        return sum(case.outcome == outcome for case in self.cases)


def attribute(text: object) -> str:
    return quoteattr(NO_XML.sub("?", str(text)), {"\n": "&#10;"})


def case_lines(case: TestCase) -> Iterable[str]:
    yield f"  <testcase classname={attribute(case.group)} name={attribute(case.name)}>"
    if case.outcome == "skipped":
        yield f"   <skipped message={attribute(case.why)}/>"
    elif case.outcome:
        yield f"   <{case.outcome} message={attribute(case.why)}>{escape(NO_XML.sub('?', case.where))}</{case.outcome}>"
    if case.said:
        yield f"   <system-out>{escape(NO_XML.sub('?', case.said))}</system-out>"
    yield "  </testcase>"


def suite_lines(suite: Suite) -> Iterable[str]:
    counts = " ".join(
        f'{name}="{suite.count(outcome)}"'
        for name, outcome in (("failures", "failure"), ("errors", "error"), ("skipped", "skipped"))
    )
    yield (
        f' <testsuite name={attribute(suite.name)} tests="{len(suite.cases)}" {counts} '
        f'time="{suite.seconds:.3f}" timestamp={attribute(suite.began)}>'
    )
    yield "  <properties>"
    yield from (
        f"   <property name={attribute(name)} value={attribute(value)}/>" for name, value in suite.properties.items()
    )
    yield "  </properties>"
    for case in suite.cases:
        yield from case_lines(case)
    yield " </testsuite>"


def xml(suites: list[Suite]) -> str:
    lines = [line for suite in suites for line in suite_lines(suite)]
    return "\n".join(['<?xml version="1.0" encoding="UTF-8"?>', "<testsuites>", *lines, "</testsuites>", ""])


def write(file: str, suites: list[Suite]) -> None:
    try:
        Path(file).write_text(xml(suites), encoding="utf-8")
    except OSError as why:
        raise WrongWords(f"--junit: {file} cannot be written: {why.strerror}") from None

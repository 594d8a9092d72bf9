"""The page of `drive --suite --html`, and its JUnit XML: both made of the document that `--json` prints."""
from __future__ import annotations

import json
import shlex
from collections.abc import Iterable, Iterator
from html import escape

from ..pages.page import HERE, policy, written
from ..pages.trace_page import Json
from . import junit
from .suite_report import TOLD, in_words, place_of, shown, why

ENDS = {
    "differs": "failure",
    "failed": "error",
    "timed out": "error",
    "not compared": "skipped",
    "not reached": "skipped",
}
STYLE = """
body { display: block; padding: 10px 16px; }
table { border-collapse: collapse; margin: 8px 0 18px; }
th, td { border-bottom: 1px solid var(--rule); padding: 2px 10px 2px 0; text-align: left; vertical-align: top; }
th { position: sticky; top: 0; background: var(--back); }
td.number { text-align: right; }
.passed { color: var(--ok); } .differs, .failed, .timed-out { color: var(--bad); font-weight: bold; } .allowed, .not-compared { color: var(--unk); } .not-reached { color: var(--none); }
"""


def about_of(document: Json) -> dict[str, str]:
    """What a report says of itself, by name."""
    made, place = document["made"], document["environment"]
    return {
        "version": made["version"],
        "program": "proved" if made["proved"] else "built without proof",
        "command": shlex.join(document["command"]),
        "began": document["began"],
        "seconds": str(document["seconds"]),
        "Python": place["python"],
        "system": place["system"],
        "processors": str(place["processors"]),
    }


def cells(tag: str, texts: Iterable[object], kind: str = "") -> str:
    mark = f' class="{kind}"' if kind else ""
    return "".join(f"<{tag}{mark}>{written(str(text))}</{tag}>" for text in texts)


def clause_rows(document: Json) -> Iterator[str]:
    outcomes = shown(document["counts"])
    yield f"<tr>{cells('th', ['clause', 'rows', *outcomes])}</tr>"
    for each in document["clauses"]:
        marked = "".join(
            f'<td class="number {outcome.replace(" ", "-") if each[outcome] else ""}">{each[outcome] or ""}</td>'
            for outcome in outcomes
        )
        yield f"<tr>{cells('td', [each['clause']])}{cells('td', [each['rows']], 'number')}{marked}</tr>"


def row_rows(entries: list[Json]) -> Iterator[str]:
    yield f"<tr>{cells('th', ['outcome', 'row', 'clauses', 'where, and what differs'])}</tr>"
    for entry in sorted(entries, key=lambda entry: (entry["outcome"] not in TOLD, entry["outcome"] != "not compared")):
        kind = entry["outcome"].replace(" ", "-")
        where = why(entry) if entry["outcome"] != "passed" else place_of(entry)
        yield f"<tr>{cells('td', [entry['outcome']], kind)}{cells('td', [entry['row'], entry['clause'], where])}</tr>"


def html(document: Json) -> str:
    """The page: of what it is, the table by clause, and all rows, those first that are not passed."""
    style = (HERE / "page.css").read_text(encoding="utf-8") + STYLE
    title = f"Suite of drive: {in_words(document['counts'])}"
    return "\n".join(
        [
            "<!DOCTYPE html>",
            '<html lang="en">',
            "<head>",
            '<meta charset="utf-8">',
            f'<meta http-equiv="Content-Security-Policy" content="{escape(policy("", style))}">',
            '<meta name="viewport" content="width=device-width, initial-scale=1">',
            f"<title>{written(title)}</title>",
            f"<style>{style}</style>",
            "</head>",
            "<body>",
            f"<h1>{written(title)}</h1>",
            "<table>",
            *(f"<tr>{cells('th', [name])}{cells('td', [value])}</tr>" for name, value in about_of(document).items()),
            "</table>",
            "<h2>By clause</h2>",
            "<table>",
            *clause_rows(document),
            "</table>",
            "<h2>By row</h2>",
            "<table>",
            *row_rows(document["rows"]),
            "</table>",
            "<h2>Scenarios</h2>",
            "<table>",
            f"<tr>{cells('th', ['scenario', 'seconds'])}</tr>",
            *(
                f"<tr>{cells('td', [each['name']])}{cells('td', [each['seconds']], 'number')}</tr>"
                for each in document["scenarios"]
            ),
            "</table>",
            "</body>",
            "</html>",
            "",
        ]
    )


def case_of(entry: Json) -> junit.TestCase:
    said = [f"clauses: {entry['clause']}"] if entry["clause"] else []
    if entry["outcome"] == "allowed":
        said.append(f"allowed: {why(entry)}")
    outcome = ENDS.get(entry["outcome"], "")
    reason = (
        f"{entry['outcome']}: {why(entry)}" if outcome == "skipped" else "; ".join(entry["told"][:1]) if outcome else ""
    )
    return junit.TestCase(
        f"suite.{entry['actor']}.{entry['input'].replace('.', ' ')}",
        entry["row"],
        outcome,
        reason,
        "\n".join([place_of(entry), *entry["told"]]) if outcome else "",
        "\n".join(said),
    )


def suites_of(document: Json) -> list[junit.Suite]:
    """A suite for each actor."""
    actors = dict.fromkeys(entry["actor"] for entry in document["rows"])
    properties = {
        name: json.dumps(value) if not isinstance(value, str) else value for name, value in about_of(document).items()
    }
    return [
        junit.Suite(
            f"drive --suite, {actor}",
            document["began"],
            document["seconds"],
            properties,
            [case_of(entry) for entry in document["rows"] if entry["actor"] == actor],
        )
        for actor in actors
    ]

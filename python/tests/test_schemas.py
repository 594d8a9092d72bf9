"""Each document that --json prints is of its schema in share/schema, and each scenario of that for editors."""
from __future__ import annotations

import contextlib
import io
import json
import shlex
import subprocess
import sys
import unittest
from collections.abc import Iterator
from functools import lru_cache
from pathlib import Path
from typing import Any
from unittest import mock

from lte_sec.common.options import options_of, rows
from lte_sec.drive import differences, drive_word as drive
from lte_sec.runs import demands, documents as documents_module, kenb_changes, verdict
from lte_sec.traces import wireshark, trace_words as words
from lte_sec.traces.repeats import first_repeat
from lte_sec.runs.scenarios import table_of

from .schemas import SCHEMAS, faults, is_of, schema_of, validator
from .standin import StandIn
from .test_traces import TRACES

TOP = Path(__file__).resolve().parents[2]
EXAMPLES = TOP / "examples"
DIALECT = "https://json-schema.org/draft/2020-12/schema"
KASME = json.loads((TRACES / "A.truth.json").read_text())["kasme"][0]["hex"]
NO_REPORTS = ("coincidence",)  # runs that end without one


@lru_cache(maxsize=None)
def is_built() -> bool:
    return subprocess.run([TOP / "lte_sec", "--program"], capture_output=True).returncode == 0


def launched(*given: object) -> Any:
    """The document that a call of the launcher prints."""
    return json.loads(
        subprocess.run(
            [TOP / "lte_sec", *map(str, given)], capture_output=True, stdin=subprocess.DEVNULL, cwd=TOP
        ).stdout
    )


def traced(name: str) -> Any:
    out = io.StringIO()
    with mock.patch.object(words, "proved_calls", StandIn), contextlib.redirect_stdout(out), contextlib.redirect_stderr(
        io.StringIO()
    ):
        words.main(
            [
                "check-trace",
                "--json",
                "--cells",
                str(TRACES / f"{name}.cells.txt"),
                str(TRACES / f"{name}.json.gz"),
                KASME,
            ]
        )
    return json.loads(out.getvalue())


def documents() -> Iterator[tuple[str, Any]]:
    """Documents of the examples, each with the name of its schema."""
    for file in sorted((EXAMPLES / "run").glob("*.out")):
        if file.stem not in NO_REPORTS:
            with contextlib.suppress(kenb_changes.NoReport):
                yield "verdict", json.loads(json.dumps(verdict.judged(file.read_text()).document()))
    yield "drive", drive.document(
        8, ["0 both done"], differences.Difference(None, "core", ["answer: wanted 0 (done), got 1 (NoContext)"]), None
    )
    yield "drive", drive.document(6, [], None, {"step": 3, "actor": "phone", "how": "it was silent"})
    yield from by_outputs()
    yield "demands", json.loads(json.dumps(demands.document(demands.load())))
    for name in ("A", "B1-star-earfcn"):
        yield "check-trace", traced(name)
    if is_built():
        yield from by_the_program()


def by_outputs() -> Iterator[tuple[str, Any]]:
    """Documents of the outputs that are kept."""
    for word, form in documents_module.FORMS.items():
        for file in sorted((EXAMPLES / word).glob("*.out")):
            told = form(file.read_text().splitlines()) if not file.read_text().startswith("refused") else None
            if told is not None:
                yield word, {"version": 1} | told | {"status": 7 if told["coincidence"] else 0}
    for file in sorted((EXAMPLES / "calc").glob("*.out")):
        told = documents_module.of_calc(file.with_suffix(".txt").read_text().split("\n"), file.read_text().splitlines())
        yield "calc", {"version": 1} | told | {"status": 3 if file.stem == "bad" else 0}
    for text in ("a 1 0 1\na 1 0 1\n", "a 1 0 1\n"):
        yield "repeats", json.loads(json.dumps(first_repeat(text.splitlines()).document()))
    yield "wireshark", wireshark.document(
        [wireshark.TableRow(1, "00" * 16, "", "11" * 16, 1, "24", "S0", "kenb(0)", 2, 2, True)], [], 0
    )


def by_the_program() -> Iterator[tuple[str, Any]]:
    """Documents of the launcher: of each word of its table that has --json, by its example, and of further calls."""
    for row in rows():
        if "--json" in options_of(row.name):
            _, *rest = shlex.split(row.example)
            yield row.name, launched(row.name, "--json", *rest)
    for name in ("run/eight-ahead", "run/coincidence", "run/two-preparations", "run/key-change"):
        yield "run", launched("run", "--json", EXAMPLES / f"{name}.toml")
    yield "what-if", launched("what-if", "--json", "--kinds", "late", EXAMPLES / "run/ordinary.toml")
    yield "what-if", launched(
        "what-if", "--json", "--goal", "stuck", "--messages", "2,3", EXAMPLES / "run/ordinary.toml"
    )
    yield "what-if", launched(
        "what-if", "--json", "--faults", "2", "--part", "1/2", EXAMPLES / "run/smc-complete-lost.toml"
    )
    twice = TRACES / "B2-nh-twice"
    yield "replay", launched("replay", "--json", "--cells", f"{twice}.cells.txt", f"{twice}.json.gz", KASME)
    yield "explain", launched("explain", "--json", "--keys", EXAMPLES / "run/ordinary.out", "--cell", "10,100", KASME)
    yield "calc", launched("calc", "--json", EXAMPLES / "calc/pdus.txt")
    yield "audit", launched("audit", "--json", "--frames", EXAMPLES / "run/ordinary.toml")
    yield "vectors", launched("vectors", "--count", "100")
    yield "drive-suite", launched("drive", "--suite", "--json", "--scenario", "air-01", "--phone", "false")
    for given in (
        ("drive", "--json", "nowhere"),
        ("run", "--json", EXAMPLES / "ladder/first.txt"),
        ("verdict", "--json", "/dev/null"),
        ("what-if", "--json", "--faults", "9"),
        ("check-trace", "--json", "nowhere"),
        ("replay", "--json"),
        ("audit", "--json", EXAMPLES / "ladder/first.txt"),
        ("ladder", "--json", "nowhere"),
        ("repeats", "--json", "/dev/zero"),
        ("wireshark", "--json", "nowhere", KASME),
        ("drive", "--json", EXAMPLES / "ladder/first.txt"),
        ("drive", "--suite", "--json", "--what"),
        ("what-if", "--json", EXAMPLES / "run/coincidence.toml"),
    ):
        yield "error", launched(*given)


class Schemas(unittest.TestCase):
    def test_each_document_is_of_its_schema_and_has_no_member_more(self) -> None:
        seen: dict[str, list[Any]] = {}
        for name, document in documents():
            seen.setdefault(name, []).append(document)
            schema = schema_of(name)
            self.assertTrue(is_of(schema, schema, document), f"{name}: {json.dumps(document)[:400]}")
        self.assertEqual("", faults([(name, schema_of(name), found) for name, found in seen.items()]))
        if validator() is None:
            print(
                (
                    "python: jsonschema is not here (Debian's python3-jsonschema), so that documents are compared "
                    "with schemas by the tests' own code alone"
                ),
                file=sys.stderr,
            )
        missing = (
            {file.name.removesuffix(".schema.json") for file in SCHEMAS.glob("*.json")} - seen.keys() - {"scenario"}
        )
        self.assertEqual(set() if is_built() else missing, missing)

    def test_each_schema_is_one(self) -> None:
        for file in SCHEMAS.glob("*.json"):
            schema = json.loads(file.read_text())
            self.assertEqual(DIALECT, schema["$schema"], file.name)
        self.assertEqual("", faults([(file.name, json.loads(file.read_text()), []) for file in SCHEMAS.glob("*.json")]))

    def test_another_document_is_not_of_a_schema(self) -> None:
        schema = schema_of("verdict")
        document = verdict.judged((EXAMPLES / "run/ordinary.out").read_text()).document()
        for name, value in (("version", 2), ("status", 4), ("items", [{}]), ("verdict", None)):
            self.assertFalse(is_of(schema, schema, {**document, name: value}), name)
        self.assertFalse(is_of(schema, schema, {**document, "more": 1}))
        self.assertTrue(is_of(schema, schema, {**document, "more": 1}, closed=False))  # a member may come

    def test_each_scenario_is_of_its_schema(self) -> None:
        schema = schema_of("scenario")
        files = [
            file
            for room in ("run", "worked", "fleet", "two", "what-if", "procedures", "runs")
            for file in sorted((EXAMPLES / room).glob("*.toml"))
        ]
        self.assertGreater(len(files), 60)
        found = [table_of(file.read_bytes()) for file in files]
        for file, document in zip(files, found):
            self.assertTrue(is_of(schema, schema, document), file)
        self.assertEqual("", faults([("scenario", schema, found)]))

    def test_the_validator_tells_what_is_wrong(self) -> None:
        told = faults([("a schema", {"type": "integer"}, [1, "x"])])
        self.assertEqual("a schema, value 1: $: 'x' is not of type 'integer'" if validator() else "", told)

    def test_a_mistake_is_not_of_the_schema_of_scenarios(self) -> None:
        schema = schema_of("scenario")
        right = (
            'phone = { caps = "a020" }\nstation = [{ id = 0, cells = [[10, 100]] }]\nstep = [{ do = "x2", '
            "station = 0, cell = [10, 100] }]\n"
        )
        self.assertTrue(is_of(schema, schema, table_of(right.encode())))
        for old, new in (
            ("a020", "a02"),
            ("id = 0", "id = 8"),
            ("[[10, 100]]", "[[504, 100]]"),
            ("[[10, 100]]", "[[10]]"),
            ("x2", "x3"),
            ("station = 0", "stations = 0"),
            (", station = 0", ""),
            ("caps", "cap"),
        ):
            self.assertFalse(is_of(schema, schema, table_of(right.replace(old, new, 1).encode())), new)


if __name__ == "__main__":
    unittest.main()

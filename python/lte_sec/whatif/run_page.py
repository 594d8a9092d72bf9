"""The word `run --json`, and the page of `draw --html`: the steps of a run and the ladder of its keys as one document.

    PROGRAM --json < SCENARIO                               prints the document, with the status of the run
    --html FILE [--html-keys no] SCENARIO < REPORT          writes the page of a report of this scenario
"""
from __future__ import annotations

import json
import subprocess
import sys
from collections.abc import Iterator
from pathlib import Path

from ..common.escaped import shown
from ..common.inputs import MOST_MADE, of_file, of_input
from ..common.options import Words
from ..common.terms import TraceError
from ..pages import page as pages
from ..pages.trace_page import GLYPHS, WORST, Json
from ..runs.kenb_changes import NOT_MADE, NoReport, Outcome
from ..runs.ladders import CLAUSES, held_by, inputs_of, kind_of, names_of, title_of
from ..runs.remarks import frames_of
from ..runs.run_report import rows_of
from ..runs.scenarios import NoScenario, read
from ..runs.verdict import judged
from .chart import lanes_of, name_of, stage, steps_of

VERSION = 1  # of the document
REASONS = Path(__file__).resolve().parents[3] / "launcher" / "reasons"
REFUSED, ENDED = 3, 7
MARKS = {
    "bad": ("step with different keys", "steps with different keys", "different keys"),
    "unk": ("step refused", "steps refused", "refused"),
    "ok": ("step done", "steps done", "done"),
    "none": ("record never delivered", "records never delivered", "never delivered"),
}


def document(report: str, octets: bytes, usual: str) -> Json:
    """The document of a report of this scenario."""
    lines, scenario, text = report.splitlines(), read(octets), octets.decode(errors="replace")
    steps = steps_of(lines, {"step": scenario.steps})
    rows, frames = rows_of(lines), frames_of(text)
    names, numbers = names_of(rows.values()), {row.key: row.number for row in rows.values()}
    lanes, delivered = lanes_of(scenario.setup, steps), {step.came.record for step in steps if step.came}
    told = []
    for number, step in enumerate(steps):
        line = step.line
        own = {
            "f": str(number),
            "frame": frames.get(number),
            "actor": line.who,
            "record": step.came.record if step.came else None,
            "sent": line.sent,
            "delivered": line.sent in delivered if line.sent is not None else None,
            "key": numbers.get(line.note.key) if line.note else None,
        }
        told.append(
            {name: value for name, value in own.items() if value is not None}
            | stage(step, lanes, lambda key: names.get(key, "a key"), False)
        )
    ended = next((line for line in lines[len(steps) :] if " coincidence " in line), None)
    return {
        "version": VERSION,
        "name": shown(name_of(text, usual)),
        "lanes": lanes,
        "steps": told,
        "verdicts": verdicts(report),
        "coincidence": ended,
        "status": 0 if ended is None else ENDED,
        "keys": [
            {
                "hex": row.key,
                "name": kind_of(row),
                "form": f"row {row.number}",
                "title": title_of(row, row.chain) if row.word != "alg" else kind_of(row),
                "from": row.above,
                "by": CLAUSES.get(row.word, ""),
                "in": inputs_of(row),
                "who": held_by(row),
            }
            for row in rows.values()
        ],
    }


def verdicts(report: str) -> Json:
    """What became of each handover and key change, as `verdict` tells it; nothing where the report does not."""
    try:
        found = judged(report)
    except NoReport:
        return {"items": [], "last": ""}
    said = [
        {
            "kind": item.kind,
            "first": item.first,
            "last": item.last,
            "v": "bad"
            if item.outcome == Outcome.DIFFER
            else "unk"
            if item.outcome in (*NOT_MADE, Outcome.NOT_TOLD)
            else "ok",
            "text": str(item),
        }
        for item in found.items
    ]
    return {"items": said, "last": found.last}


# The page


def events(told: Json) -> Iterator[Json]:
    """The steps, and below each what it sends that is never delivered."""
    lines: dict[int, list[Json]] = {}
    for item in told["verdicts"]["items"]:
        lines.setdefault(item["last"], []).append(line_of(item, told["steps"]))
    for number, step in enumerate(told["steps"]):
        own = lines.get(number, [])
        verdict = "bad" if any(line["v"] == "bad" for line in own) else "unk" if step.get("answer") else "ok"
        frame = {"note": f"f{step['frame']}"} if "frame" in step else {}
        yield {name: value for name, value in step.items() if name not in ("lost", "delivered")} | {
            "v": verdict
        } | frame | ({"l": own} if own else {})
        if step.get("delivered") is False:
            lane = told["lanes"].index(step["actor"]) if step["actor"] in told["lanes"] else 0
            yield {
                "f": f"{number} sent",
                "a": lane,
                "m": step.get("sends", "record"),
                "s": f"record {step['sent']} is never delivered",
                "v": "none",
                "lost": True,
            }


def line_of(item: Json, steps: list[Json]) -> Json:
    """What became of a handover or key change, at its last step; where keys differ with that of the phone and that of
    the target."""
    line = {"what": item["kind"], "v": item["v"], "text": item["text"]}
    if item["v"] == "bad":
        line |= {
            "isk": steps[item["last"]].get("key"),
            "wantk": steps[item["first"]].get("key"),
            "names": ["the phone has", "the station has"],
        }
    return {name: value for name, value in line.items() if value is not None}


def page(told: Json) -> Json:
    """The page of the document."""
    rows = list(events(told))
    keys: list[Json] = [{**key, "at": []} for key in told["keys"]]
    for place, row in enumerate(rows):
        if "key" in row:
            keys[row["key"]]["at"].append(place)
    return {
        "page": "run",
        "title": f"Run: {told['name']}",
        "unit": "step",
        "marks": [
            {"v": verdict, "glyph": GLYPHS[verdict], "one": one, "many": many, "word": word}
            for verdict, (one, many, word) in MARKS.items()
        ],
        "lanes": [{"name": name, "kind": name.split()[0]} for name in told["lanes"]],
        "events": rows,
        "keys": keys,
        "verdicts": [
            {"f": str(item["last"]), "v": item["v"], "text": item["text"]}
            for item in sorted(told["verdicts"]["items"], key=lambda item: WORST.index(item["v"]))
        ],
    }


def summary(told: Json) -> Iterator[str]:
    """The summary of a run, in lines."""
    refused = sum("answer" in step for step in told["steps"])
    yield (
        f"{len(told['steps'])} steps, {refused} of them refused; {len(told['keys'])} "
        f"keys{'; ' + told['verdicts']['last'] if told['verdicts']['last'] else ''}."
    )
    if told["coincidence"]:
        yield "The run ends at a coincidence."
    yield from (item["text"] for item in told["verdicts"]["items"])


def of_note(told: Json) -> Iterator[str]:
    """What became of handovers and key changes, and the steps that are refused."""
    yield from (item["text"] for item in told["verdicts"]["items"])
    yield from (
        f"step {step['f']} {step['actor']} {step['m']}: {step['answer']}" for step in told["steps"] if "answer" in step
    )


# The words


def answered(words: list[str]) -> int:
    """`run --json` for the scenario on standard input."""
    program = words[0]
    octets = of_input()
    ran = subprocess.run([program, "run"], input=octets, stdout=subprocess.PIPE)
    if ran.returncode in (0, ENDED):
        print(json.dumps(document(ran.stdout.decode(), octets, "a scenario"), indent=1))
    else:
        sys.stderr.write(ran.stdout.decode(errors="replace"))
    sys.stdout.flush()
    if ran.returncode == REFUSED:
        said = subprocess.run(
            [sys.executable, str(REASONS), "text", program, "run"], input=octets, stderr=subprocess.PIPE
        ).stderr
        sys.stderr.write(said.decode(errors="replace"))
    return ran.returncode


def drawn(words: list[str]) -> int:
    """The page of a report on standard input."""
    given = Words.read("draw", words)
    has_keys, scenario, file = (
        pages.chosen(given.last("--html-keys", "yes")),
        given.files[0],
        Path(given.last("--html")),
    )
    pages.writable(file)
    octets = of_file(scenario)
    told = document(of_input(MOST_MADE).decode(), octets, scenario.stem)
    pages.write(file, pages.html(page(told), summary(told), of_note(told), has_keys))
    return 0


def main(words: list[str]) -> int:
    try:
        return drawn(words) if words[0].startswith("--") else answered(words)
    except TraceError as fault:
        print(f"lte_sec: status {fault.status}: {fault}", file=sys.stderr)
        return fault.status
    except NoScenario as fault:
        print(f"lte_sec: status 3: {fault}", file=sys.stderr)
        return REFUSED


if __name__ == "__main__":
    sys.exit(main(sys.argv[1:]))

"""The page of a trace that is judged: made of the document that --json prints."""
from __future__ import annotations

from collections.abc import Iterator
from typing import Any

Json = dict[str, Any]
UNIT = "frame"
MARKS = {"differs": "bad", "not judged": "unk", "right": "ok", "note": "none"}
WORST = ("bad", "unk", "ok", "none")
GLYPHS = {"bad": "✗", "unk": "?", "ok": "✓", "none": "·"}
SAID = {
    "bad": ("frame differs", "frames differ"),
    "unk": ("frame not judged", "frames not judged"),
    "ok": ("frame right", "frames right"),
    "none": ("frame without a key or MAC", "frames without a key or MAC"),
}
FROM_PHONE = ("InitialUEMessage", "UplinkNASTransport")
MANY = 50_000  # frames; above these only those with lines are in a page
AIR = "RRC"


class Lanes:
    """The lanes of a trace: the phones, the stations and the cores, each by its name."""

    def __init__(self, messages: list[Json]):
        kinds: dict[str, str] = {}
        for one in messages:
            if one["link"] == "S1":
                station, core = (one["source"], one["target"]) if one["way"] == "up" else (one["target"], one["source"])
                kinds[station] = "station"
                kinds.setdefault(core, "core")
            elif one["link"] != AIR:
                for end in (one["source"], one["target"]):
                    kinds.setdefault(end, "station" if one["link"] == "X2" else "core")
        kinds.pop("", None)
        ordered = sorted(kinds, key=lambda name: kinds[name] != "station")
        several = len({one["phone"] for one in messages} - {None}) > 1
        self.all = [
            {"name": "phones" if several else "phone", "kind": "phone"},
            *({"name": name, "kind": kinds[name]} for name in ordered),
        ]
        self.places = {name: place for place, name in enumerate(ordered, 1)}

    def ends(self, message: Json) -> tuple[int | None, int | None]:
        """The lanes that a message goes from and to."""
        if message["link"] == AIR:
            return 0, 0
        return self.places.get(message["source"]), self.places.get(message["target"])


def phones(document: Json) -> list[Json]:
    """The phones with their KASMEs and M-TMSIs."""
    found: dict[int, Json] = {}
    for message in document["messages"]:
        if message["phone"] is not None:
            phone = found.setdefault(
                message["phone"],
                {"number": message["phone"], "name": f"phone {message['phone']}", "kasmes": [], "tmsis": []},
            )
            if message["tmsi"] is not None and f"{message['tmsi']:08x}" not in phone["tmsis"]:
                phone["tmsis"].append(f"{message['tmsi']:08x}")
    for line in document["lines"]:
        number = document["messages"][line["number"]]["phone"]
        if (
            line["kasme"]
            and line["verdict"] == "right"
            and number in found
            and line["kasme"] not in found[number]["kasmes"]
        ):
            found[number]["kasmes"].append(line["kasme"])
    return [found[number] for number in sorted(found)]


def line_of(line: Json) -> Json:
    """The fields of a line, without those that it does not have."""
    nas = line["nas"] or {}
    fields = {
        "what": line["what"],
        "v": MARKS[line["verdict"]],
        "text": line["text"],
        "is": line["is"],
        "wanted": line["wanted"],
        "isk": line["key"],
        "wantk": line["wanted_key"],
        "chain": line["mac_key"],
        "name": nas.get("name"),
        "way": nas.get("direction"),
        "header": nas.get("header"),
        "ksi": nas.get("ksi"),
        "eea": nas.get("eea"),
        "eia": nas.get("eia"),
        "count": line["count"],
        "ncc": line["ncc"],
        "wncc": line["wanted_ncc"],
        "cell": line["cell"],
        "hex": line["hex"],
        "whex": line["wanted_hex"],
        "plain": line["plain"],
        "why": line["reason"],
        "clause": line.get("clause"),
        "kasme": line["kasme"],
    }
    return {name: value for name, value in fields.items() if value not in (None, "")}


def short(lines: list[Json]) -> str:
    """What was judged of a message, in a few words, the worst first."""
    judged = sorted(
        (line for line in lines if line["verdict"] != "note"), key=lambda line: WORST.index(MARKS[line["verdict"]])
    )
    words = [f"{nas_name(line)}{line['what']} {line['verdict']}" for line in judged] + [
        "warning" for line in lines if line["warning"]
    ]
    return ", ".join(dict.fromkeys(words))


def nas_name(line: Json) -> str:
    """The name of a NAS message before what is judged of it."""
    return f"{line['nas']['name']}: " if line["nas"] and line["nas"]["name"] else ""


def event(message: Json, lines: list[Json], lanes: Lanes, begun: float) -> Json:
    """A message with what was judged of it."""
    start, end = lanes.ends(message)
    verdicts = {MARKS[line["verdict"]] for line in lines} or {"none"}
    fields = {
        "f": message["frame"],
        "t": round(message["time"] - begun, 6),
        "m": message["title"],
        "a": start,
        "b": end,
        "p": message["phone"],
        "v": next(verdict for verdict in WORST if verdict in verdicts),
        "s": short(lines),
        "w": any(line["warning"] for line in lines) or None,
        "nas": ("up" if message["name"] in FROM_PHONE else "down")
        if message["nas"] and message["link"] == "S1"
        else None,
        "c": message["connection"],
        "h": message["handover"],
        "link": message["link"],
        "from": message["source_address"],
        "to": message["target_address"],
        "l": [line_of(line) for line in lines],
    }
    return {name: value for name, value in fields.items() if value not in (None, "", [])}


def page(document: Json, most: int = MANY) -> Json:
    """The page of the document."""
    messages, by_message = document["messages"], dict[int, list[Json]]()
    for line in document["lines"]:
        by_message.setdefault(line["number"], []).append(line)
    kept = [place for place in range(len(messages)) if len(messages) <= most or place in by_message]
    lanes, begun = Lanes([messages[place] for place in kept]), min((one["time"] for one in messages), default=0.0)
    places = {place: number for number, place in enumerate(kept)}
    keys = [{**key, "at": [places[place] for place in key["at"] if place in places]} for key in document["keys"]]
    files = document.get("files", [])
    return {
        "page": "trace",
        "title": "Trace " + ", ".join(file["name"] for file in files) if files else "Trace",
        "unit": UNIT,
        "marks": [
            {"v": verdict, "glyph": GLYPHS[verdict], "one": SAID[verdict][0], "many": SAID[verdict][1]}
            for verdict in WORST
        ],
        "lanes": lanes.all,
        "phones": phones(document),
        "events": [event(messages[place], by_message.get(place, []), lanes, begun) for place in kept],
        "keys": keys,
        "summary": document["summary"],
        "files": files,
        "options": document.get("options", []),
        "left": len(messages) - len(kept),
    }


def told(document: Json, made: Json) -> Iterator[str]:
    """The summary of a trace, in lines."""
    counts = document["summary"]
    yield (
        f"{counts['right']} lines right, {counts['differs']} differ, {counts['not judged']} not judged, of "
        f"{len(document['messages'])} messages."
    )
    if len(made["events"]) < len(document["messages"]):
        yield f"The {made['left']} messages without a line are left out of the page, since there are more than {MANY}."
    yield from document["head"]
    for file in document.get("files", []):
        yield f"{file['name']} SHA-256 {file['sha256']}"
    about = document.get("made")
    if about:
        calls = {True: "proved calls", False: "calls that are built without proof", None: "the program calc"}[
            about["proved"]
        ]
        options = f", with {' '.join(document['options'])}" if document.get("options") else ""
        yield f"Judged by {about['by']} {about['version']} with {calls}{options}."


def of_note(document: Json) -> Iterator[str]:
    """The lines that differ or are not judged."""
    return (line["text"] for line in document["lines"] if line["verdict"] in ("differs", "not judged"))

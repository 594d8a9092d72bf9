"""Runs a scenario with each actor served at a port: leaves what was sent as texts for text2pcap.

    docs/cookbook/capture SCENARIO FOLDER

The folder gets `pdcp.txt` and `nas.txt`, and a configuration for Wireshark: its preferences, and the keys of each
connection as the table `pdcp_lte_ue_keys`. The time of a packet is the step that sent it, in seconds. Where words,
files or the scenario are others it says so in one line, with status 2, or 1 where the scenario does not run.

A UE id does not mean a phone here: the n-th air address at which something was sent, counted from 1, has 10 n for what
is not ciphered yet (the RRC Security Mode Command and its Complete) and 10 n + 1 for all else. So each id has one set
of keys.
"""
from __future__ import annotations

import json
import pathlib
import socket
import subprocess
import sys
from collections.abc import Iterator
from typing import Any, NoReturn, Union

from ..runs.run_report import rows_of
from ..runs.scenarios import NoScenario, table_of
from . import frames, network

TOP = pathlib.Path(__file__).resolve().parents[3]
PROGRAM = TOP / "lte_sec"
SECONDS = 60
BEARERS = {name: octet for octet, name in frames.BEARERS.items()}
INITIAL_CONTEXT = 0x20  # the first octet of that record on S1
Name = Union[str, int]  # phone, core, or the number of a station
SentMessage = tuple[int, Name, bytes, bytes, bool]
KEYED = {3: "RRC encryption", 4: "RRC integrity", 5: "user plane encryption"}  # algorithm types (TS 33.401 A.7)


def number(value: int, octets: int) -> bytes:
    """A number in so many octets."""
    return value.to_bytes(octets, "big")


def cell(pair: list[int]) -> bytes:
    """A cell in a frame."""
    return number(pair[0], 2) + number(pair[1], 4)


class Actor:
    """An actor at a port: `./lte_sec serve ..`, told in frames (docs/FRAMES.md)."""

    def __init__(self, *words: str):
        self.program = subprocess.Popen(
            [PROGRAM, "serve", *words], stdin=subprocess.DEVNULL, stdout=subprocess.PIPE, stderr=subprocess.DEVNULL
        )
        assert self.program.stdout
        port = self.program.stdout.readline().strip()
        if not port.isdigit():
            wrong(1, f"./lte_sec serve {' '.join(words)} does not start")
        self.connection = socket.create_connection(("127.0.0.1", int(port)), SECONDS)
        self.replies = self.connection.makefile("rb")

    def told(self, body: bytes) -> frames.Reply:
        """The reply to a frame with this body."""
        self.connection.sendall(frames.framed(body))
        return frames.read_reply(frames.read_frame(self.replies) or b"")

    def stop(self) -> None:
        """Closes the connection, at which the actor ends."""
        self.replies.close()
        self.connection.close()
        self.program.wait(SECONDS)


class System:
    """Phone, stations and core of a scenario, and what they have sent."""

    def __init__(self, scenario: dict[str, Any]):
        self.caps = bytes.fromhex(scenario["phone"]["caps"])
        core = scenario.get("core", {})
        stations = scenario["station"]
        sites = [(s["id"], pair) for s in stations for pair in s["cells"]]
        table = number(len(sites), 1) + b"".join(number(i, 1) + cell(pair) for i, pair in sites)
        self.actors: dict[Name, Actor] = {"phone": Actor("phone"), "core": Actor("core")}
        self.actors["phone"].told(b"\0" + self.caps)
        for name, part in [("core", core)] + [(s["id"], s) for s in stations]:
            if name != "core":
                self.actors[name] = Actor("station", str(name))
            priority = bytes(part.get("priority", [2, 0]))
            kind = b"\6" if name == "core" and part.get("first_ncc") == 2 else b"\0"
            self.actors[name].told(kind + number(len(priority), 1) + priority + number(part.get("first", 1), 4) + table)
        self.sent: list[
            SentMessage
        ] = []  # of each record: the step, the sender, its address, its octets, and whether it opens security
        self.keys: dict[bytes, bytes] = {}  # the KeNB of each station and air address

    def stop(self) -> None:
        """Stops all actors."""
        for actor in self.actors.values():
            actor.stop()

    def tell(self, step: int, name: Name, body: bytes, opens: bool = False) -> None:
        """Tells an actor a frame, and keeps what it sends and the key that it notes."""
        reply = self.actors[name].told(body)
        if reply.record is not None:
            address, octets = reply.to, reply.record
            opens = opens or (isinstance(name, int) and body[:2] == bytes([4, INITIAL_CONTEXT]))
            self.sent.append((step, name, address, octets, opens))
            # the phone answers under the key that it took; a station sends under one just given only in a new context
            if reply.note and (address[0] == 4 or opens and address[0] == 0):
                self.keys[address[1:6]] = reply.note.key

    def happen(self, step: int, event: dict[str, Any]) -> None:
        """One step of the scenario."""
        do = event["do"]
        if do == "deliver":
            self.deliver(step, event["record"])
        elif do == "auth":
            kasme = number(event["ksi"], 1) + bytes.fromhex(event["kasme"])
            self.tell(step, "phone", b"\1" + kasme)
            self.tell(step, "core", b"\1" + kasme + bytes.fromhex(event.get("caps", self.caps.hex())))
        elif do == "inject":
            self.inject(step, event)
        else:
            self.tell(step, *act(event))

    def deliver(self, step: int, record: int) -> None:
        """Gives a record to whom it was sent."""
        at = record if record >= 0 else len(self.sent) + record
        if not 0 <= at < len(self.sent):
            return
        _, sender, address, octets, opens = self.sent[at]
        tag = address[0]
        if tag in (0, 4):
            to: Name = "phone" if tag == 0 else address[1]
            from_station = address[1:2] if tag == 0 else b""
            self.tell(step, to, bytes([3, *from_station, *address[2:7]]) + octets, opens and tag == 0)
        else:
            name = {1: "phone", 2: "core", 3: "core"}.get(tag) or address[1] if tag != 5 else address[1]
            self.tell(step, name, {1: b"\2", 2: b"\2", 3: b"\4", 5: b"\4", 6: b"\5"}[tag] + octets)

    def inject(self, step: int, event: dict[str, Any]) -> None:
        """Gives an actor octets that nobody sent."""
        octets = bytes.fromhex(event["octets"])
        name = event["station"] if event["to"] == "station" else event["to"]
        if event["bearer"] == "nas":
            self.tell(step, name, b"\2" + octets)
        else:
            place = number(event["air"], 4) + bytes([BEARERS[event["bearer"]]])
            station = number(event["station"], 1) if name == "phone" else b""
            self.tell(step, name, b"\3" + station + place + octets)


def act(event: dict[str, Any]) -> tuple[Name, bytes]:
    """The actor of an act, and its frame."""
    told = network.act(event)
    assert told is not None
    role, _, place = told.actor.partition(" ")
    return int(place) if place else role, told.body


def framed(ue: int, uplink: bool, bearer: int, pdu: bytes) -> bytes:
    """A PDCP PDU in the framing over UDP that Wireshark knows (packet-pdcp-lte.h)."""
    user = bearer >= 0x80
    head = bytes([0, 2 if user else 1, 0, 0x02, 12 if user else 5, 0x03, 0 if uplink else 1, 0x04, 1])
    return b"pdcp-lte" + head + b"\x0d" + number(bearer & 0x7F, 2) + b"\x0e" + number(ue, 2) + b"\x01" + pdu


def dump(step: int, octets: bytes) -> str:
    """A packet as text2pcap reads it."""
    hour, minute, second = step // 3600, step // 60 % 60, step % 60
    return f"1970-01-01T{hour:02}:{minute:02}:{second:02}Z\n0000 {octets.hex(' ')}\n"


def algorithm_keys(report: str) -> dict[str, dict[int, tuple[int, str]]]:
    """Of each KeNB of a report the keys derived from it, by algorithm type: (identity, octets)."""
    rows = rows_of(report.splitlines())
    keys: dict[str, dict[int, tuple[int, str]]] = {}
    for row in rows.values():
        if row.word == "alg" and row.parent is not None:
            _, kind, identity = row.values
            keys.setdefault(rows[row.parent].key, {})[kind] = (identity, row.key)
    return keys


def key_lines(
    places: list[bytes], keys: dict[bytes, bytes], derived: dict[str, dict[int, tuple[int, str]]]
) -> Iterator[list[str]]:
    """The table of keys: UE id, RRC encryption, user plane encryption, RRC integrity, the last 16 octets of each."""
    for at, place in enumerate(places, 1):
        of = derived.get(keys[place].hex(), {}) if place in keys else {}
        key = {kind: of[kind][1][32:] if kind in of and of[kind][0] else "" for kind in KEYED}
        yield [str(10 * at), "", "", key[4]]
        yield [str(10 * at + 1), key[3], key[5], key[4]]


def wrong(status: int, why: str) -> NoReturn:
    """Says why it ends."""
    print(f"capture: {why}", file=sys.stderr)
    sys.exit(status)


def report_of(text: bytes) -> str:
    """What `run` prints of a scenario; it ends where the run does not reach its end."""
    ran = subprocess.run([PROGRAM, "run"], input=text, capture_output=True)
    if ran.returncode != 0:
        lines = [*ran.stdout.decode().splitlines()[-1:], *ran.stderr.decode().splitlines()[-1:]]
        wrong(1, f"./lte_sec run ends with status {ran.returncode}: {'; '.join(lines)}")
    return ran.stdout.decode()


def read_scenario(file: pathlib.Path, folder: pathlib.Path) -> tuple[dict[str, Any], str]:
    """A scenario, and what `run` prints of it; the folder is there then."""
    try:
        text = file.read_bytes()
        report = report_of(text)
        folder.mkdir(parents=True, exist_ok=True)
    except OSError as fault:
        wrong(2, f"{fault.filename}: {fault.strerror}")
    try:
        return table_of(text), report
    except NoScenario as fault:
        wrong(1, f"{file}: {fault}")


PREFERENCES = """\
pdcp-lte.check_sequence_numbers: Only-PDCP-frames
pdcp-lte.default_ciphering_algorithm: EEA2 (AES)
pdcp-lte.default_integrity_algorithm: EIA2 (AES)
pdcp-lte.decipher_userplane: TRUE
pdcp-lte.show_signalling_plane_as_rrc: FALSE
pdcp-lte.show_user_plane_as_ip: FALSE
"""


def main() -> None:
    """Runs the scenario step by step, and writes the folder."""
    if len(sys.argv) != 3:
        wrong(2, "it takes a scenario and a folder: docs/cookbook/capture SCENARIO FOLDER")
    file, folder = map(pathlib.Path, sys.argv[1:])
    scenario, report = read_scenario(file, folder)
    system = System(scenario)
    for step, event in enumerate(scenario.get("step", [])):
        system.happen(step, event)
    system.stop()
    places: list[bytes] = []
    pdcp, nas = [], []
    for step, _, address, octets, opens in system.sent:
        tag = address[0]
        if tag in (1, 2):
            nas.append(dump(step, octets))
        elif tag in (0, 4):
            place, bearer = address[1:6], address[6]
            if place not in places:
                places.append(place)
            ue = 10 * (places.index(place) + 1) + (0 if opens else 1)
            pdcp.append(dump(step, framed(ue, tag == 4, bearer, octets)))
    (folder / "pdcp.txt").write_text("".join(pdcp))
    (folder / "nas.txt").write_text("".join(nas))
    lines = key_lines(places, system.keys, algorithm_keys(report))
    (folder / "pdcp_lte_ue_keys").write_text("".join(",".join(map(json.dumps, line)) + "\n" for line in lines))
    (folder / "heuristic_protos").write_text("pdcp_lte_udp,1\n")
    (folder / "preferences").write_text(PREFERENCES)
    print(f"{len(pdcp)} PDCP PDUs, {len(nas)} NAS messages, {len(places)} connections")

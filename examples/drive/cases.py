"""What `check` tries: each exchange of the ordinary scenario, with each way in which a peer is wrong at it, phones that
are wrong, cores, and what the program and the launcher say of each."""
from __future__ import annotations

import collections
import pathlib
from collections.abc import Iterator
from typing import NamedTuple

import peer

HERE = pathlib.Path(__file__).resolve().parent
TOP = HERE.parent.parent
SCENARIO = TOP / "examples" / "run" / "ordinary.toml"
REPORT = TOP / "examples" / "run" / "ordinary.out"
ROLES = ["phone", "core", "station-0", "station-1"]


class Exchange(NamedTuple):
    """An exchange with a peer: its role, its number among those of the role, its reply, the report before the reply
    comes, and the step, or `setup`."""

    role: str
    number: int
    reply: bytes
    before: str
    step: str


class Case(NamedTuple):
    """A run of the program: what is wrong, and the status, output and words on standard error that it must have."""

    role: str
    number: int
    how: str
    status: int
    output: str
    said: str


def exchanges() -> list[Exchange]:
    """All exchanges, in order."""
    replies = {role: [reply for _, reply in peer.frames_of(role)] for role in ROLES}
    done: collections.Counter[str] = collections.Counter()
    found: list[Exchange] = []
    before = ""

    def add(role: str, step: str) -> None:
        found.append(Exchange(role, done[role], replies[role][done[role]], before, step))
        done[role] += 1

    for role in ROLES:
        add(role, "setup")
    for line in REPORT.read_text().splitlines(keepends=True):
        if line.startswith("end "):
            break
        before += line
        step, who, other, *_ = line.split()
        for role in {"both": ["phone", "core"], "station": [f"station-{other}"]}.get(who, [who]):
            add(role, step)
    assert done == {role: len(replies[role]) for role in ROLES}
    return found


NO_PORT = "its program said no port in its first line, within 10 seconds"
NOT_REACHED = "nothing took a connection at the port that its program said"
NO_REPLY = "it gave no whole reply: it closed the connection, or 10 seconds went by"


def cases(found: list[Exchange]) -> Iterator[Case]:
    yield Case("none", 0, "-", 0, REPORT.read_text(), "")
    yield Case("phone", 0, "is not a file", 6, "", "phone: its program did not start")
    for role in ROLES:
        for how in ("is silent", "says nothing", *peer.SAYS):
            fault = NOT_REACHED if how == "says a port where nobody listens" else NO_PORT
            yield Case(role, 0, how, 6, "", f"{role.replace('-', ' ')}: {fault}")
    for place, e in enumerate(found):
        name = e.role.replace("-", " ")
        yield Case(e.role, e.number, ("cuts", "closes", "hangs")[place % 3], 6, e.before, f"{name}: {NO_REPLY}")
        wanted, how = e.reply.hex(), "lengthens" if place % 5 == 0 else "changes"
        got = e.reply[:-1].hex() + f"{e.reply[-1] ^ 1:02x}" if how == "changes" else f"{len(e.reply) - 1:04x}"
        told = f"{name}: its reply differs"
        if how == "lengthens":
            told += f"\nlte_sec: {name}: it had still to say {e.reply[2:].hex()}00"
        yield Case(e.role, e.number, how, 8, f"{e.before}{e.step} differs {wanted} {got}\n", told)


REPLY = bytes.fromhex(
    (TOP / "examples" / "serve" / "phone.frames").read_text().split()[15]
)  # to the RRC Security Mode Command, step 6
PLACE = REPLY.index(bytes.fromhex("00028b94a05e"))
WORDS = "lte_sec: step 6, phone: RRC message on SRB1:"
WANTED = "lte_sec: step 6, phone: record: wanted 00028b94a05e, got 00028b94a0"
BEHIND = "\nlte_sec: status 6: an actor that was driven failed, or the port of a served actor"
CLOSED = "lte_sec: step 6, phone: it closed the connection before it gave a whole reply"
SILENT = "lte_sec: step 6, phone: it was silent for 10 seconds, where a reply was due"


class Phone(NamedTuple):
    """The phone of examples/actor by the launcher: what is wrong with it, and the status, last line, standard error and
    options."""

    how: str
    status: int
    last: str
    said: str
    options: tuple[str, ...] = ()


PHONES = [
    Phone("is right", 0, REPORT.read_text().splitlines()[-1], ""),
    Phone(
        "changes",
        8,
        f"6 differs {REPLY.hex()} {REPLY.hex().replace('8b94a05e', '8b94a05f')}",
        f"{WORDS} MAC-I differs\n{WANTED}5f",
    ),
    Phone(
        "lengthens",
        8,
        f"6 differs {REPLY.hex()} {len(REPLY) - 1:04x}",
        f"{WORDS} text differs; MAC-I differs\n{WANTED}5e00",
    ),
    Phone(
        "turns",
        8,
        f"6 differs {REPLY.hex()} {REPLY.hex().replace('8b94a05e', '9c5e8df7')}",
        (
            f"{WORDS} MAC-I differs\n{WANTED.removesuffix('8b94a0')}9c5e8df7\nlte_sec: step 6, phone: MAC-I: it is "
            "that of the other direction"
        ),
    ),
    Phone("dies", 6, REPORT.read_text().splitlines()[5], CLOSED + BEHIND),
    Phone(
        "falls",
        6,
        REPORT.read_text().splitlines()[5],
        "it fell\nat the third line\nof what it says\n" + CLOSED + BEHIND,
    ),
    Phone("hangs", 6, REPORT.read_text().splitlines()[5], SILENT + BEHIND),
    Phone("says no port", 6, "", f"lte_sec: phone: {NO_PORT}" + BEHIND),
]
# The same with --timeout: the program itself waits ten seconds, and an actor may take more or less than that.
PATIENT = ("--timeout", "30")
PHONES += [
    Phone("thinks", 0, REPORT.read_text().splitlines()[-1], "", PATIENT),
    *(
        phone._replace(options=PATIENT)
        for phone in PHONES
        if phone.how in ("is right", "changes", "lengthens", "dies", "falls")
    ),
    Phone("hangs", 6, REPORT.read_text().splitlines()[5], SILENT.replace("10", "5") + BEHIND, ("--timeout", "5")),
    Phone("says no port", 6, "", "lte_sec: phone: it said no port within 10 seconds" + BEHIND, ("--timeout", "5")),
]

# The scenario of a run with the core of examples/actor, its status, and the line on standard error that is said.
CORES = [
    ("standard-core", 0, ""),
    (
        "ordinary",
        8,
        (
            "lte_sec: step 4, core: this core may send the pair of NCC 2 first, as TS 33.401 7.2.8.1.1 has it: then "
            "write first_ncc = 2 in [core]"
        ),
    ),
]

# The scenario with three stations, of which the third has the place of the second; and words that stand before those of
# `serve`.
THREE = (
    SCENARIO.read_text()
    .replace(
        "  { id = 1, cells = [[11, 101]] },", "  { id = 1, cells = [[12, 102]] },\n  { id = 2, cells = [[11, 101]] },"
    )
    .replace("station = 1", "station = 2")
)
BEFORE = ["a word with blanks", "--phone", "é", "4"]

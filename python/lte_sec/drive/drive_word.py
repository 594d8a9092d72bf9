"""`./lte_sec drive` with actors of one's own: `[--json] [--timeout SECONDS] [--phone CMD] [--station [N=]CMD] [--core
CMD] -- PROGRAM drive`, with the scenario as input.

The program takes an actor's command from a variable, a word in a line (docs/COOKBOOK.md). Its output and status stay as
they are. A reply that differs is told in words and in parts on standard error. With --json one document is printed in
place of the report, and has both. Nothing that was started is left behind.
"""
from __future__ import annotations

import contextlib
import dataclasses
import json
import os
import pathlib
import re
import signal
import subprocess
import sys
import tempfile
import threading
import time
from typing import IO

from lte_sec.runs import scenarios
from lte_sec.drive.differences import Difference, difference_of, place_of, steps_of, with_mistake
from lte_sec.common.ending import HEAD, READING, WRITING, InputFails, answers
from lte_sec.common.options import WrongWords
from lte_sec.drive.drive_options import STATIONS, DriveOptions
from lte_sec.drive.patient import TURN, Relays
from lte_sec.drive.peers import TO_SAY, PeerFault

VERSION = 1  # of the document that --json prints
REFUSED, FAULT, DIFFERS_AT = 3, 6, 8  # statuses: the text is no scenario, an actor failed, a reply differs
ANSWERS = (0, FAULT, 7, DIFFERS_AT)  # statuses with a report
NO_ANSWER = {1: "memory ran out", READING: "reading the input failed", 9: "the input has more than 16,777,216 octets"}
MOST = 16_777_216  # octets of a scenario
REASONS = pathlib.Path(__file__).resolve().parents[3] / "launcher" / "reasons"
OTHER = re.compile(rb"lte_sec: (phone|core|station [0-7]): (.*)\n")  # how an actor failed before its first reply
FAILED = re.compile(rb"lte_sec: (phone|core|station [0-7]): it gave no whole reply: .*\n")
TOLD = re.compile(rb"lte_sec: (phone|core|station [0-7]): its reply differs\n")
REST = re.compile(rb"lte_sec: (?:phone|core|station [0-7]): it had still to say ([0-9a-f]+)\n")


# A shell between the program, which stops an actor that failed at once, and the actor, which may still be writing why
# it did.
OUTLIVES = ("/bin/sh", "-c", '"$@" & wait', "sh")
PATIENCE, LATE = (
    10,
    2,
)  # seconds that the program waits for a reply; and that may go by here, on a busy machine, before the line above it is read
TO_HEAR = 20  # seconds that what is left on standard error may take when all has ended, on a busy machine


def outliving(found: dict[str, str]) -> dict[str, str]:
    """The variables with commands that are not ended where their actor failed, before it has said why."""
    return {name: "\n".join((*OUTLIVES, command)) for name, command in found.items()}


def put(descriptor: int, octets: bytes) -> None:
    while octets:
        octets = octets[os.write(descriptor, octets) :]


class Driven:
    """The program, in a group of processes of its own, so that it ends with all that it started."""

    def __init__(
        self, command: list[str], more: dict[str, str], is_kept: bool, text: IO[bytes] | None = None, printed: int = 0
    ):
        """Starts it, with this text; so many lines of the report are printed already."""
        self.last, self.whose, self.rest, self.failed = b"", b"", b"", b""
        self.said: list[str] = []
        self.printed, self.how = printed, ""
        self.lines: list[bytes] = []
        self.read_last = self.failed_at = time.monotonic()
        self.report: list[str] | None = [] if is_kept else None
        self.is_unwritten = False
        if text is not None:
            text.seek(0)
        self.process = subprocess.Popen(
            command,
            stdin=text,
            stdout=subprocess.PIPE,
            stderr=subprocess.PIPE,
            env=os.environ | more,
            start_new_session=True,
        )

    def print_on(self, source: IO[bytes]) -> None:
        """Hands on what the program prints, or keeps it, but for its last line. Where that fails the program, if it
        still writes, is to see it."""
        with source:
            for line in source:
                if self.last and not self.hands_on(self.last):
                    return
                self.last, self.read_last = line, time.monotonic()

    def hands_on(self, line: bytes) -> bool:
        """As `hand_on`; whether it was written."""
        try:
            self.hand_on(line)
        except OSError:
            self.is_unwritten = True
        return not self.is_unwritten

    def hand_on(self, line: bytes) -> None:
        self.lines.append(line)
        if self.report is None:
            put(1, line if len(self.lines) > self.printed else b"")
        else:
            self.report.append(line.decode().removesuffix("\n"))

    def hear(self, source: IO[bytes]) -> None:
        """Hands on what is said on standard error, but for what is told of a reply that differs."""
        for line in source:
            if told := TOLD.fullmatch(line):
                self.whose = told[1]
            elif rest := REST.fullmatch(line):
                self.rest = bytes.fromhex(rest[1].decode())
            elif failed := FAILED.fullmatch(line):
                self.failed, self.failed_at = failed[1], time.monotonic()
            else:
                if other := OTHER.fullmatch(line):
                    self.said = [part.decode(errors="replace") for part in other.groups()]
                put(2, line)

    def run(self) -> int:
        assert self.process.stdout and self.process.stderr
        hearing = threading.Thread(target=self.hear, args=(self.process.stderr,), daemon=True)
        hearing.start()
        self.print_on(self.process.stdout)
        status = self.process.wait()
        ends = time.monotonic() + TO_SAY
        while status == FAULT and hearing.is_alive() and not self.is_silent() and time.monotonic() < ends:
            hearing.join(TURN)
        self.end()
        hearing.join(TO_HEAR)
        return status if status >= 0 else 128 - status

    def tell(self) -> None:
        """Says how an actor failed, or prints the last line."""
        if self.failed:
            with contextlib.suppress(OSError):
                put(2, f"lte_sec: {self.failure()}\n".encode())
        elif self.last and not self.is_unwritten:
            self.hands_on(self.last)

    def step(self) -> int | None:
        """The step of the last line, which is not done and not handed on where an actor failed; None for the setup."""
        return int(self.last.split()[0]) if self.last else None

    def is_silent(self) -> bool:
        """Whether an actor failed that was silent for as long as the program waits."""
        return self.failed != b"" and self.failed_at - self.read_last >= PATIENCE - LATE

    def failure(self) -> str:
        """How an actor failed, and where."""
        how = (
            f"it was silent for {PATIENCE} seconds, where a reply was due"
            if self.is_silent()
            else "it closed the connection before it gave a whole reply"
        )
        return f"{place_of(self.step())}, {self.failed.decode()}: {self.how or how}"

    def fault(self) -> dict[str, object] | None:
        """The actor that failed as --json has it: the step, None for the setup and where it did not come to one, the
        actor, and how."""
        if self.failed:
            return {"step": self.step(), "actor": self.failed.decode(), "how": self.failure().partition(": ")[2]}
        return {"step": None, "actor": self.said[0], "how": self.said[1]} if self.said else None

    def end(self) -> None:
        """Ends what is left of the group."""
        with contextlib.suppress(ProcessLookupError, PermissionError):
            os.killpg(self.process.pid, signal.SIGKILL)


def document(
    status: int, report: list[str], found: Difference | None, failed: dict[str, object] | None
) -> dict[str, object]:
    """The document that --json prints: the status, the lines of the report, the reply that differs, and the actor that
    failed."""
    return {
        "version": VERSION,
        "status": status,
        "report": report,
        "differs": dataclasses.asdict(found) if found else None,
        "failed": failed,
    }


def commands(more: dict[str, str], octets: bytes) -> dict[str, list[str]]:
    """The command of each actor of a scenario that has one of one's own; none where the scenario does not read."""
    try:
        stations = scenarios.read(octets).stations
    except (scenarios.NoScenario, UnicodeDecodeError, LookupError, TypeError):
        return {}
    usual = {f"station {number}": more.get("LTE_SEC_STATION") for number in stations} | {"phone": None, "core": None}
    found = {actor: more.get(f"LTE_SEC_{actor.upper().replace(' ', '_')}", command) for actor, command in usual.items()}
    return {actor: command.split("\n") for actor, command in found.items() if command}


class Run:
    """A run of the program over a scenario, or several where an actor takes longer than it waits; what was started is
    ended with it."""

    def __init__(self, command: list[str], options: DriveOptions, scenario: bytes = b""):
        self.command, self.options, self.scenario = command, options, scenario
        self.driven: Driven | None = None
        self.relays: Relays | None = None

    def run(self) -> tuple[int, Driven]:
        with tempfile.TemporaryFile() as text:
            text.write(self.scenario)
            text.flush()
            return self.once(text) if self.options.seconds is None else self.patiently(text, self.options.seconds)

    def once(self, text: IO[bytes]) -> tuple[int, Driven]:
        self.driven = Driven(self.command, outliving(self.options.more), self.options.is_json, text)
        return self.driven.run(), self.driven

    def patiently(self, text: IO[bytes], seconds: float) -> tuple[int, Driven]:
        """As `once`, where actors may be silent for so long."""
        self.relays = Relays(commands(self.options.more, self.scenario), seconds)
        printed = 0
        while True:
            self.driven = Driven(
                self.command, self.options.more | self.relays.variables(), self.options.is_json, text, printed
            )
            self.relays.begin()
            status = self.driven.run()
            self.relays.finish()
            late = self.relays.of.get(self.driven.failed.decode()) if status == FAULT else None
            if self.driven.is_unwritten or late is None or not late.comes():
                if late:
                    late.hear_out()
                    self.driven.how = late.failure()
                return status, self.driven
            printed = len(self.driven.lines)

    def end(self) -> None:
        if self.driven:
            self.driven.end()
        if self.relays:
            self.relays.end()


def printed(document: dict[str, object]) -> bool:
    """Prints a document; whether it was written."""
    answers()
    try:
        put(1, json.dumps(document, indent=1).encode() + b"\n")
    except OSError:
        return False
    return True


def refusal(program: str, scenario: bytes) -> str:
    """Why the program refuses a scenario, as the launcher says it; nothing where no reason is found."""
    said = subprocess.run(
        [sys.executable, str(REASONS), "text", program, "drive"],
        input=scenario,
        stdout=subprocess.DEVNULL,
        stderr=subprocess.PIPE,
    ).stderr
    return HEAD.sub("", said.decode(errors="replace").strip())


def no_answer(status: int, report: list[str], program: str, scenario: bytes) -> dict[str, object]:
    """The document where there is no report: why, the status, and what the program printed."""
    why = refusal(program, scenario) if status == REFUSED else NO_ANSWER.get(status)
    return {"error": why or "".join(report[-1:]), "status": status, "report": report}


def answered(run: Run) -> int:
    """Runs, and tells what there is to tell; the status."""
    status, driven = run.run()
    driven.tell()
    if driven.is_unwritten:
        return WRITING  # the launcher says so
    program = run.command[0]
    found = (
        difference_of(driven.last, driven.whose, driven.rest, steps_of(run.scenario), driven.lines)
        if status == DIFFERS_AT
        else None
    )
    found = with_mistake(found, driven.last, driven.rest, program, run.scenario) if found else None
    for line in found.lines() if found else ():
        print(f"lte_sec: {line}", file=sys.stderr)
    if driven.report is not None:
        failed = driven.fault() if status == FAULT else None
        told = (
            document(status, driven.report, found, failed)
            if status in ANSWERS
            else no_answer(status, driven.report, program, run.scenario)
        )
        if not printed(told):
            return WRITING  # the launcher says so
    return status


def has_stations(more: dict[str, str], scenario: bytes) -> None:
    """Says where a command is for a station that the scenario lacks."""
    try:
        there = [str(number) for number in scenarios.read(scenario).stations]
    except (scenarios.NoScenario, UnicodeDecodeError, LookupError, TypeError, AttributeError):
        return  # the program says what is wrong with it
    for name in more:
        number = name.removeprefix("LTE_SEC_STATION_")
        if number in STATIONS and number not in there:
            raise WrongWords(f"--station {number}=CMD: the scenario has no station {number}, but {listed(there)}")


def listed(names: list[str]) -> str:
    return " and ".join([", ".join(names[:-1]), *names[-1:]] if len(names) > 1 else names) or "none"


def main() -> int:
    parts = sys.argv.index("--")
    try:
        options = DriveOptions.read(sys.argv[1:parts])
        if not sys.argv[parts + 1 :]:  # without a program only the words are read
            return 0
        scenario = sys.stdin.buffer.read(MOST + 1)
        has_stations(options.more, scenario)
        run = Run(sys.argv[parts + 1 :], options, scenario)
    except WrongWords as why:
        print(f"lte_sec: status 2: {why}", file=sys.stderr)
        return 2
    except InputFails:
        if options.is_json:
            printed({"error": NO_ANSWER[READING], "status": READING})
        return READING  # the launcher says so

    def stopped(number: int, _: object) -> None:
        run.end()
        os._exit(128 + number)

    for number in (signal.SIGINT, signal.SIGTERM, signal.SIGHUP):
        signal.signal(number, stopped)
    try:
        return answered(run)
    except PeerFault as why:
        print(f"lte_sec: {why}", file=sys.stderr)
        return FAULT
    finally:
        run.end()


if __name__ == "__main__":
    sys.exit(main())

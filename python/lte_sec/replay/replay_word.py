"""The word `replay` of the launcher: `PROGRAM [OPTION].. CAPTURE.. KASME..`. docs/REPLAY.md has its lines and
statuses."""
from __future__ import annotations

import json
import os
import sys
from pathlib import Path

from ..common.causes import Cause
from ..common.terms import TraceError
from ..runs.courses import ProgramFails
from ..traces.trace_words import TraceWords, noted, traced
from .comparison import ComparedKey, ReplayVerdict, compared
from .phones import CapturedPhone, first_ncc, phones_of
from .recording import Met, RecordedTrace, record
from .replay_answer import NO_TEXTS, SECRETS, ReplayedCapture, ReplayedPart, scenario_of
from .script import CELLS, STATIONS, Script
from .steps import Steps, triggers_of

FAILS, STOPPED = 6, 130
USUAL_CAPS = "a020"  # EEA0, 128-EEA2 and 128-EIA2, which the profile has


def walked(
    found: RecordedTrace, phone: CapturedPhone, met: list[Met], texts: bool, whole: str
) -> tuple[Steps, int | None]:
    """The steps of these messages, and the place at which their scenario is full."""
    script = Script(first_ncc=first_ncc(phone.met))
    own = {name: value for name, value in found.kasmes.items() if name in phone.kasmes}
    steps = Steps(script, own, texts, triggers_of(met), cells=found.cells, met=met, whole=whole)
    return steps, steps.walk()


def scenarios_of(found: RecordedTrace, phone: CapturedPhone, texts: bool) -> list[Steps]:
    """The steps of a phone: one scenario, or several where one has no room for its stations."""
    done: list[Steps] = []
    met, whole = phone.met, "the capture"
    while met:
        steps, full = walked(found, phone, met, texts, whole)
        if full is not None:
            cut = steps.cut or full
            if cut == 0:
                steps.not_replayed(met[0], Cause.NOT_ONE_SCENARIO.because())
                done[-1].rows += steps.rows if done else []
                met = met[1:]
                continue
            steps, _ = walked(found, phone, met[:cut], texts, whole)
            met, whole = met[cut:], "this part of the capture"
            steps.script.assume(
                met[0].frame,
                f"from here on another scenario, since one has at most {STATIONS} stations, and {CELLS} cells of each",
            )
        else:
            met = []
        done.append(steps)
    return done


def capabilities(steps: Steps, phone: CapturedPhone) -> None:
    """The capabilities that the phone told, with the algorithms that the profile has."""
    told = next((met.message.capabilities for met in phone.met if met.message.capabilities is not None), None)
    octets = (
        bytes.fromhex(steps.script.caps)
        if steps.script.caps
        else bytes([told[0] << 4, told[1] << 4])
        if told
        else bytes(2)
    )
    usual = bytes.fromhex(USUAL_CAPS)
    steps.script.caps = bytes(one | other for one, other in zip(octets, usual)).hex()


def replayed(program: str, found: RecordedTrace, captures: list[str], texts: bool) -> ReplayedCapture:
    """Each phone of a capture, replayed."""
    answer = ReplayedCapture(captures, texts=texts)
    phones, others = phones_of(found)
    for number, phone in enumerate(phones, 1):
        scenarios = scenarios_of(found, phone, texts)
        for place, steps in enumerate(scenarios, 1):
            capabilities(steps, phone)
            done = compared(steps.script, steps.script.run(program), steps.rows, found.kasmes)
            answer.parts.append(
                ReplayedPart(str(number) if len(scenarios) == 1 else f"{number}.{place}", phone.kasmes, done)
            )
    for met in others:
        if met.key is not None:
            why = Cause.OF_NO_PHONE if met.connection is None else Cause.NOT_GIVEN
            answer.others.append(
                ComparedKey(
                    met.frame,
                    met.title,
                    met.key.what,
                    ReplayVerdict.NOT_REPLAYED,
                    str(met.key.term),
                    met.key.ncc,
                    why=why.because(),
                )
            )
    return answer


def save(answer: ReplayedCapture, folder: Path) -> None:
    """Writes each scenario, which nobody else may read: it has KASME in it."""
    try:
        folder.mkdir(parents=True, exist_ok=True)
        for part in answer.parts:
            file = folder / f"phone-{part.number}.toml"
            with open(os.open(file, os.O_WRONLY | os.O_CREAT | os.O_TRUNC, 0o600), "w", encoding="utf-8") as opened:
                opened.write(scenario_of(answer, part))
            part.file = str(file)
    except OSError as fault:
        raise TraceError(f"the scenarios cannot be written to {folder}: {fault.strerror}") from None


def one_of(answer: ReplayedCapture, number: str) -> str:
    """The scenario of one phone."""
    found = next((part for part in answer.parts if part.number == number), None)
    if found is None:
        raise TraceError(
            "--phone is one of "
            f"{', '.join(part.number for part in answer.parts) or 'none, for no phone of the capture is known'}: "
            f"{number}"
        )
    return scenario_of(answer, found)


def tell(answer: ReplayedCapture, words: TraceWords) -> int:
    """Writes the answer as it is wanted; the status."""
    for folder in words.options["--save"]:
        save(answer, Path(folder))
    wanted = words.last("--phone")
    if wanted:
        sys.stdout.write(one_of(answer, wanted))
    elif words.has("--json"):
        print(json.dumps(answer.document(), indent=1))
    else:
        print(*answer.lines(), sep="\n")
    sys.stdout.flush()
    if wanted or words.has("--save"):
        print(
            f"lte_sec: {SECRETS}; --no-texts puts zeros in place of the texts"
            if answer.texts
            else f"lte_sec: {NO_TEXTS}",
            file=sys.stderr,
        )
    return answer.status()


def main(words: list[str]) -> int:
    try:
        given = TraceWords.read("replay", words[1:])
        if not words[0]:  # without a program only the words are read
            return 0
        trace = traced(given)
        status = tell(
            replayed(words[0], record(trace), [file.name for file in given.files], not given.has("--no-texts")), given
        )
        return status or noted(trace)
    except TraceError as fault:
        print(f"lte_sec: status {fault.status}: replay: {fault}", file=sys.stderr)
        return fault.status
    except ProgramFails as fault:
        print(f"lte_sec: status 6: {fault}", file=sys.stderr)
        return FAILS
    except KeyboardInterrupt:
        return STOPPED


if __name__ == "__main__":
    sys.exit(main(sys.argv[1:]))

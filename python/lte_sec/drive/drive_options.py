"""Options of `drive`: the commands of actors, as variables of the program, and how long an actor may be silent."""
from __future__ import annotations

import dataclasses
import os
import re
import shlex
import shutil

from ..common.options import Words, WrongWords

OPTIONS = {"--phone": "LTE_SEC_PHONE", "--station": "LTE_SEC_STATION", "--core": "LTE_SEC_CORE"}
STATIONS = [str(number) for number in range(8)]


@dataclasses.dataclass
class DriveOptions:
    """What the words ask for: the variables of commands, and for how long an actor may be silent where it is not the
    program that says so."""

    more: dict[str, str]
    is_json: bool = False
    seconds: float | None = None

    @classmethod
    def read(cls, words: list[str]) -> DriveOptions:
        given = Words.read("drive", words)
        return cls(variables(given), given.has("--json"), [None, *map(seconds, given.options["--timeout"])][-1])


def seconds(word: str) -> float:
    """The value of --timeout."""
    if not re.fullmatch(r"[0-9]+(\.[0-9]+)?", word) or float(word) == 0:
        raise WrongWords(f"--timeout needs a number of seconds above 0, and not '{word}'")
    return float(word)


def variables(words: Words) -> dict[str, str]:
    """The variables of the commands of actors."""
    return dict(variable(option, command) for option in OPTIONS for command in words.options[option])


def variable(option: str, command: str) -> tuple[str, str]:
    """The variable of an actor's command, and its value."""
    name = OPTIONS[option]
    station = re.fullmatch(r"(\d+)=(.*)", command, re.S) if option == "--station" else None
    if station:
        if station[1] not in STATIONS:
            raise WrongWords(
                f"there is no station {station[1]}: --station N=CMD takes N {STATIONS[0]} to {STATIONS[-1]}"
            )
        name, command = f"{name}_{station[1]}", station[2]
    try:
        parts = shlex.split(command)
    except ValueError as why:
        raise WrongWords(f"{option} '{command}': {why}") from None
    if not parts or "\n" in command:
        raise WrongWords(f"{option} needs a command in one line")
    path = shutil.which(parts[0])
    if path is None:
        raise WrongWords(f"{option}: there is no program {parts[0]} that can be run")
    return name, "\n".join([os.path.abspath(path), *parts[1:]])

"""What is wrong with the words that the launcher or a program was given, and what may stand there."""
from __future__ import annotations

import os

from calc import Check, number
from lte_sec.runs.kinds import nearest

ACTORS = ["phone", "station", "core"]
# What follows these words, and of each part its name and what is wrong with another.
BEHIND: dict[str, tuple[str, dict[str, Check]]] = {
    "gen": (
        "two numbers, that of steps and the seed, as gen 100 7",
        {"the number of steps": number(1, 100_000), "the seed": number(0, 2**32 - 1)},
    ),
    "serve station": ("one number 0 to 7", {"the station": number(0, 7)}),
    "serve phone": ("no more words", {}),
    "serve core": ("no more words", {}),
}


def reason(words: list[str], known: list[str]) -> str | None:
    """Why these words are none, where the known words are those of the launcher; None where no reason is found."""
    word, *behind = words or [""]
    if word == "serve" and not behind:
        return "serve takes the actor: phone, station and a number 0 to 7, or core"
    if word == "serve" and behind[0] not in ACTORS:
        return f"serve takes phone, station or core, and not '{behind[0]}'{nearest(behind[0], ACTORS)}"
    if word == "serve":
        word, *behind = f"serve {behind[0]}", *behind[1:]
    if word in BEHIND:
        may, parts = BEHIND[word]
        wrongs = (f"{name} {wrong}" for (name, check), given in zip(parts.items(), behind) if (wrong := check(given)))
        return next(wrongs, None) if len(behind) == len(parts) else f"{word} takes {may}"
    if word in known:
        return None
    if os.path.isfile(word):
        return f"a word comes before the file, as run {word}; ./lte_sec --help lists them"
    return f"there is no word '{word}'{nearest(word, known) or '; ./lte_sec --help lists them'}"

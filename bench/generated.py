"""The generated scenarios of docs/SCENARIOS.md as texts, made from that page and not by the program, and one of many
phones."""
from __future__ import annotations

import hashlib
import sys
from collections.abc import Iterator
from pathlib import Path

sys.path.insert(0, str(Path(__file__).resolve().parents[1] / "python"))
from lte_sec.runs.scenarios import table_of  # noqa: E402

PHONES = 256


class Draws:
    def __init__(self, seed: int):
        self.x = seed

    def draw(self, below: int) -> int:
        self.x = (self.x * 6364136223846793005 + 1442695040888963407) % 2**64
        return (self.x >> 33) % below

    def text(self) -> str:
        self.draw(2)
        return self.x.to_bytes(8, "big").hex()


def turns(seed: int) -> Iterator[str]:
    """The steps of the turns, for ever."""
    draws, serving, lost = Draws(seed), 0, False
    arrival = "{do='deliver',record=-1}"
    while True:
        choice = draws.draw(6)
        if choice < 2:
            sender = "'phone'" if choice == 0 else f"'station',station={serving}"
            yield f"{{do='user',from={sender},bearer='drb1',text='{draws.text()}'}}"
            yield arrival
            continue
        target = serving
        if choice < 5:
            target = (serving + 1 + draws.draw(3)) % 4
        if choice == 3 and lost:
            choice = 2
        word, before, behind = {2: ("x2", 2, 5), 3: ("x2", 2, 3), 4: ("s1", 4, 3), 5: ("intra", 0, 2)}[choice]
        yield f"{{do='{word}',station={serving},cell=[{10 + target},{100 + target}]}}"
        yield from [arrival] * before
        yield f"{{do='command',station={serving}}}"
        yield from [arrival] * behind
        if choice < 5:
            serving, lost = target, choice == 3


def scenario(count: int, seed: int) -> str:
    """The scenario of so many steps that a seed gives."""
    arrival = "{do='deliver',record=-1}"
    steps = [f"{{do='auth',ksi=0,kasme='{bytes(range(32)).hex()}'}}", "{do='smc'}", arrival, arrival]
    steps += ["{do='connect',cell=[10,100]}", arrival, arrival, arrival]
    more = turns(seed)
    while len(steps) < count:
        steps.append(next(more))
    stations = ",".join(f"{{id={s},cells=[[{10 + s},{100 + s}]]}}" for s in range(4))
    return f"phone={{caps='a020'}}\nstation=[{stations}]\nstep=[\n" + ",\n".join(steps[:count]) + "]\n"


def written(value: object) -> str:
    """A value as TOML has it."""
    if isinstance(value, str):
        return f"'{value}'"
    if isinstance(value, list):
        return "[" + ",".join(map(written, value)) + "]"
    if isinstance(value, dict):
        return "{" + ",".join(f"{key}={written(it)}" for key, it in value.items()) + "}"
    return str(value)


def of_fleet(count: int) -> str:
    """A scenario of 256 phones, with as many steps as go evenly into them."""
    phones = [table_of(scenario(count // PHONES, phone + 1).encode()) for phone in range(PHONES)]
    lines = [
        f"fleet={{phones={PHONES}}}",
        f"phone={written(phones[0]['phone'])}",
        f"station={written(phones[0]['station'])}",
        "step=[",
    ]
    for steps in zip(*(it["step"] for it in phones)):
        for phone, step in enumerate(steps):
            own: dict[str, object] = (
                {"kasme": hashlib.sha256(b"%d" % phone).hexdigest()} if step["do"] == "auth" else {}
            )
            told: dict[str, object] = {"phone": phone, **step, **own}
            lines.append(written(told) + ",")
    return "\n".join([*lines, "]", ""])

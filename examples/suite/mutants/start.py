"""start.py NUMBER WORD..: a wrong actor, that of the edit with this number in `edits`, counted from 0, with the words
of its program."""
import pathlib
import sys
import types
from typing import NamedTuple

HERE = pathlib.Path(__file__).resolve().parent
ACTORS = HERE.parent / "actors"
SHARED = ("texts", "radio", "station_state")


class Mutant(NamedTuple):
    """A wrong actor: whose it is, what is wrong, the scenario and the row by which it is told, and the edits, each with
    what is taken out and what is put in."""

    actor: str
    wrong: str
    scenario: str
    row: str
    edits: list[tuple[str, str]]


def mutants(file: pathlib.Path = HERE / "edits") -> list[Mutant]:
    """The wrong actors of the file, in order."""
    lines = [line for line in file.read_text().splitlines() if line and not line.startswith("#")]
    found, place = [], 0
    while place < len(lines):
        actor, wrong, scenario, row = (part.strip() for part in lines[place].split(" | ", 3))
        edits: list[tuple[list[str], list[str]]] = []
        place += 1
        while place < len(lines) and lines[place][0] in "-+":
            if lines[place][0] == "-" and (not edits or edits[-1][1]):
                edits.append(([], []))
            edits[-1][lines[place][0] == "+"].append(lines[place][2:])
            place += 1
        found.append(Mutant(actor, wrong, scenario, row, [("\n".join(out), "\n".join(put)) for out, put in edits]))
    return found


def edited(mutant: Mutant) -> dict[str, str]:
    """The texts of the modules with the edits: that of the actor, and those that it stands on."""
    texts = {name: (ACTORS / f"{name}.py").read_text() for name in (*SHARED, mutant.actor)}
    for out, put in mutant.edits:
        name = next((name for name in reversed(texts) if texts[name].count(out) == 1), None)
        if name is None:
            raise SystemExit(f"{mutant.wrong}: the words that are taken out do not stand once in a module: {out}")
        texts[name] = texts[name].replace(out, put)
    return texts


def main() -> None:
    mutant = mutants()[int(sys.argv[1])]
    sys.path.insert(0, str(ACTORS))
    sys.dont_write_bytecode = True
    sys.argv[1:2] = []
    *others, (actor, whole) = edited(mutant).items()
    for name, text in others:
        module = sys.modules[name] = types.ModuleType(name)
        module.__file__ = str(ACTORS / f"{name}.py")
        exec(compile(text, f"{name}.py", "exec"), module.__dict__)
    sys.modules["__main__"].__file__ = str(ACTORS / f"{actor}.py")
    exec(compile(whole, f"{actor}.py", "exec"), sys.modules["__main__"].__dict__)


if __name__ == "__main__":
    main()

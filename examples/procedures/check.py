#!/usr/bin/env python3
"""check.py PROGRAM [--write]: runs each procedure on this program, and compares its report with the standard and its
scenario with the file here.

`--write` writes the files of the scenarios anew. Status 1 where anything differs."""
import inspect
import pathlib
import sys
import types

import changes
import connections
import crossings
import handovers
from judging import faults_of
from procedure import Procedure


def procedures_of(module: types.ModuleType) -> dict[str, Procedure]:
    """The procedures that a module has, by the name of their scenario."""
    made = inspect.getmembers(module, lambda it: inspect.isfunction(it) and it.__module__ == module.__name__)
    return {
        name.replace("_", "-"): make() for name, make in made if inspect.signature(make).return_annotation is Procedure
    }


def main(words: list[str]) -> int:
    here = pathlib.Path(__file__).resolve().parent
    procedures = {
        name: it
        for module in (connections, crossings, handovers, changes)
        for name, it in procedures_of(module).items()
    }
    if words[1:] == ["--write"]:
        for name, procedure in procedures.items():
            (here / f"{name}.toml").write_text(procedure.text(), encoding="utf-8")
        return 0
    if len(words) != 1:
        print("procedures: name one program", file=sys.stderr)
        return 2
    faults = [f"{name}: {fault}" for name, it in procedures.items() for fault in faults_of(it, words[0])]
    kept = {path.stem: path.read_text("utf-8") for path in here.glob("*.toml")}
    faults += [
        f"{name}.toml is not this procedure's scenario"
        for name, it in procedures.items()
        if kept.get(name) != it.text()
    ]
    faults += [f"{name}.toml has no procedure" for name in kept.keys() - procedures.keys()]
    for fault in faults:
        print(f"procedures: {fault}")
    departs = sum(any(wanted.departs for wanted in it.wanted) for it in procedures.values())
    keys = sum(wanted.key is not None for it in procedures.values() for wanted in it.wanted) + sum(
        len(it.rows) for it in procedures.values()
    )
    print(
        f"procedures: {len(procedures)} with {keys} keys, {departs} of them as the "
        f"profile departs, {len(faults)} faults"
    )
    return int(bool(faults))


if __name__ == "__main__":
    sys.exit(main(sys.argv[1:]))

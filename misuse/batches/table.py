"""The table of the edits and of the goals that refused each."""
import pathlib

from batches.edits import Edit
from batches.said import Verdict

HEAD = (
    "# Each edit of this folder, by crate, with the function that the prover refuses and its goals that stay "
    "open. misuse/edits/try --renew writes it."
)

Rows = dict[tuple[str, str], str]


def row(edit: Edit, verdict: Verdict) -> tuple[tuple[str, str], str]:
    """The row of an edit that was refused."""
    return (edit.crate, edit.name), " ".join((edit.crate, edit.name, verdict.function, *verdict.goals))


def read_table(file: pathlib.Path) -> Rows:
    """The rows that are kept, by crate and edit."""
    lines = file.read_text("utf-8").split("\n") if file.is_file() else []
    rows = [it for it in lines if it and not it.startswith("#")]
    return {(it.split()[0], it.split()[1]): it for it in rows}


def write_table(file: pathlib.Path, rows: Rows) -> None:
    """Writes the rows in their order."""
    file.write_text("\n".join([HEAD, *(rows[it] for it in sorted(rows))]) + "\n", "utf-8")


def renewed(old: Rows, new: Rows, crates: set[str]) -> Rows:
    """The rows that are kept, with those of these crates in place of their old ones."""
    return {**{it: text for it, text in old.items() if it[0] not in crates}, **new}


def differences(old: Rows, new: Rows, crates: set[str]) -> list[str]:
    """How the rows that are kept of these crates differ from what was tried: each edit has a row, with all goals that
    it leaves open."""
    lost = [text for it, text in sorted(old.items()) if it[0] in crates and new.get(it) != text]
    return [f"- {text}" for text in lost] + [f"+ {text}" for it, text in sorted(new.items()) if old.get(it) != text]

"""Edits: wrong bodies, each a file with pairs of lines `old:` and `new:` below a line `file:`.

The texts are one line each, and an old text stands once in its file.
"""
import dataclasses
import pathlib

from batches.functions import Function, function_at


class Stale(Exception):
    """Why an edit cannot be put into the text that stands there."""


@dataclasses.dataclass(frozen=True)
class Change:
    """A text of a file of the crate, and what takes its place."""

    path: str
    old: str
    new: str


@dataclasses.dataclass(frozen=True)
class Edit:
    """An edit of a crate, by its name, with its octets and its changes."""

    crate: str
    name: str
    octets: bytes
    changes: tuple[Change, ...]


@dataclasses.dataclass(frozen=True)
class Placed:
    """An edit, and the functions in whose bodies it stands; none of them where it changes anything else, as a type or a
    contract."""

    edit: Edit
    functions: tuple[Function, ...]

    @property
    def is_alone(self) -> bool:
        """Whether no other edit may stand beside it."""
        return not self.functions


Texts = dict[str, str]


def read_edit(file: pathlib.Path) -> Edit:
    """The edit of a file, in the folder of its crate."""
    octets, path, old, changes = file.read_bytes(), "", "", []
    for line in octets.decode("utf-8").split("\n"):
        if line.startswith("file: "):
            path = line.removeprefix("file: ").strip()
        elif line.startswith("old: "):
            old = line.removeprefix("old: ")
        elif line.startswith("new:"):
            changes.append(Change(path, old, line.removeprefix("new:").removeprefix(" ")))
    if not changes or not all(it.path and it.old for it in changes):
        raise Stale("it has no lines `file:`, `old:` and `new:` in that order")
    return Edit(file.parent.name, file.stem, octets, tuple(changes))


def put_into(edit: Edit, texts: Texts) -> Texts:
    """The texts of a crate's files, by path, with the edit in them."""
    made = dict(texts)
    for change in edit.changes:
        if change.path not in made:
            raise Stale(f"there is no file {change.path}")
        found = made[change.path].count(change.old)
        if found != 1:
            raise Stale(f"its old text is in {change.path} {found} times, and not once: {change.old.strip()}")
        made[change.path] = made[change.path].replace(change.old, change.new)
    if made == texts:
        raise Stale("it changes nothing")
    return made


def place(edit: Edit, texts: Texts) -> Placed:
    """Where an edit stands. An import that its body needs changes nothing else."""
    put_into(edit, texts)
    functions: list[Function] = []
    for change in [it for it in edit.changes if not it.old.startswith("use ")]:
        start = texts[change.path].find(change.old)
        found = function_at(change.path, texts, start, start + len(change.old)) if start >= 0 else None
        if found is None:
            return Placed(edit, ())
        functions += [] if found in functions else [found]
    return Placed(edit, tuple(functions))

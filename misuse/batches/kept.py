"""What earlier runs on this machine refused, by the sums of all that they read. A sum names its entry, so that none
goes stale."""
from __future__ import annotations

import functools
import hashlib
import json
import os
import pathlib
import tempfile

from batches.crates import Crate, version
from batches.edits import Edit
from batches.said import Kind, Verdict

# Raise it where the reading of the prover's output changes.
FORMAT = 2


class Kept:
    """The entries of a folder, or of the one that users have for what programs keep."""

    def __init__(self, folder: pathlib.Path | None = None) -> None:
        home = os.environ.get("XDG_CACHE_HOME") or os.path.join(os.path.expanduser("~"), ".cache")
        self.folder = folder or pathlib.Path(home, "seedspan-edits")

    def find(self, crate: Crate, edit: Edit) -> Verdict | None:
        """What an earlier run came to with this edit of the same crate over the same crates below."""
        try:
            said = json.loads((self.folder / sum_of(crate, edit)).read_text("utf-8"))
            return Verdict(Kind.REFUSED, said["function"], tuple(said["goals"]))
        except (OSError, ValueError, KeyError, TypeError):
            return None

    def keep(self, crate: Crate, edit: Edit, verdict: Verdict) -> None:
        """Keeps an edit that was refused. Where the folder cannot be written, it is tried again next time."""
        if verdict.kind != Kind.REFUSED:
            return
        entry = {"crate": crate.name, "edit": edit.name, "function": verdict.function, "goals": verdict.goals}
        try:
            self.folder.mkdir(parents=True, exist_ok=True)
            with tempfile.NamedTemporaryFile(
                "w", dir=self.folder, prefix="new-", delete=False, encoding="utf-8"
            ) as made:
                json.dump(entry, made)
            os.replace(made.name, self.folder / sum_of(crate, edit))
        except OSError:
            pass


def sum_of(crate: Crate, edit: Edit) -> str:
    """The sum of all that a try of an edit reads."""
    return hashlib.sha256(repr((FORMAT, crate_sum(crate), edit.name, edit.octets)).encode()).hexdigest()


@functools.cache
def crate_sum(crate: Crate) -> str:
    """The sum of a crate's files and line, of the crates below it and of the toolchain."""
    parts = (version(), crate.line, sorted(crate.texts().items()), [crate_sum(it) for it in crate.named])
    return hashlib.sha256(repr(parts).encode()).hexdigest()

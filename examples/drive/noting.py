"""An actor of ../suite that adds each frame that it is told to a file, in a line behind its role.

Its words are the file and those of `serve`.
"""

from __future__ import annotations

import importlib
import pathlib
import sys
from typing import BinaryIO

EXAMPLES = pathlib.Path(__file__).resolve().parent.parent
sys.dont_write_bytecode = True
sys.path[:0] = [str(EXAMPLES / "actor"), str(EXAMPLES.parent / "python")]

from lte_sec.drive import frames  # noqa: E402


def main() -> None:
    notes, role = sys.argv.pop(1), sys.argv[2]
    sys.path.insert(0, str(EXAMPLES / "suite" / "actors"))
    actor = importlib.import_module(role)
    read = frames.read_frame

    def noting(source: BinaryIO) -> bytes | None:
        body = read(source)
        if body is not None:
            with open(notes, "a", encoding="ascii") as file:
                print(role, body.hex(), file=file)
        return body

    frames.read_frame = noting
    if role == "station":
        actor.main()
    else:
        actor.serving.main(role, getattr(actor, role.capitalize()))


if __name__ == "__main__":
    main()

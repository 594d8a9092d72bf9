"""Of what an answer is and by whom: the files that were read with their SHA-256, the version of the package, and
whether its calls are proved."""
from __future__ import annotations

import hashlib
from collections.abc import Iterable
from pathlib import Path

from .escaped import shown

VERSION = Path(__file__).resolve().parents[3] / "VERSION"
AT_ONCE = 1 << 20  # octets of a file


def version() -> str:
    """The version of the repository, or of the wheel."""
    try:
        return VERSION.read_text(encoding="ascii").strip()
    except (OSError, ValueError):
        pass
    import importlib.metadata  # only of a wheel, as it takes as long to load as most of the package

    try:
        return importlib.metadata.version("lte_sec")
    except importlib.metadata.PackageNotFoundError:
        return ""


def is_proved() -> bool | None:
    """Whether the library of calls is the proved one; None where there is none, so that the program `calc` answers."""
    try:
        from ..library import proved
    except (ImportError, OSError, AttributeError):
        return None
    return proved()


def files(paths: Iterable[Path]) -> list[dict[str, str]]:
    """The name and the SHA-256 of each file, as far as it can be read again."""
    return [{"name": shown(path.name), "sha256": digest(path)} for path in paths]


def digest(path: Path) -> str:
    sums = hashlib.sha256()
    try:
        with open(path, "rb") as file:
            while piece := file.read(AT_ONCE):
                sums.update(piece)
    except OSError:
        return ""
    return sums.hexdigest()


def trace(paths: Iterable[Path], options: Iterable[str]) -> dict[str, object]:
    """What the document of a trace says of itself."""
    return {
        "files": files(paths),
        "options": [shown(option) for option in options],
        "made": {"by": "lte_sec", "version": version(), "proved": is_proved()},
    }

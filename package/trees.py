"""What is packed: files and links by their places, and how they become an archive with the same octets each time."""
from __future__ import annotations

import dataclasses
import gzip
import io
import os
import re
import subprocess
import tarfile
from collections.abc import Iterator
from pathlib import Path

TOP = Path(__file__).resolve().parent.parent


@dataclasses.dataclass(frozen=True)
class Entry:
    """A file with its octets, or a link with the place that it leads to."""

    octets: bytes = b""
    link: str = ""
    is_program: bool = False

    @property
    def mode(self) -> int:
        return 0o755 if self.is_program else 0o644


Tree = dict[str, Entry]


def linked(place: str, to: str) -> Entry:
    """A link at this place to another place of the same tree."""
    return Entry(link=os.path.relpath(to, os.path.dirname(place) or "."))


def below(prefix: str, tree: Tree) -> Tree:
    """The tree as it lies below a prefix."""
    return {f"{prefix}/{place}": entry for place, entry in tree.items()}


def known(path: str) -> list[str]:
    """The files of this path that git knows, or where this is no checkout all that are there."""
    ran = subprocess.run(["git", "-C", TOP, "ls-files", "-z", "--", path], capture_output=True, text=True)
    if ran.returncode == 0 and ran.stdout:
        return sorted(name for name in ran.stdout.split("\0") if name and (TOP / name).is_file())
    found = (file for named in TOP.glob(path) for file in ([named] if named.is_file() else named.rglob("*")))
    return sorted(str(file.relative_to(TOP)) for file in found if file.is_file() and "__pycache__" not in file.parts)


def packed(file: Path) -> Entry:
    return Entry(file.read_bytes(), is_program=os.access(file, os.X_OK))


def contents(part: str) -> Tree:
    """The files of the repository that belong to this part by the table `contents`."""
    lines = [
        line.split(" | ") for line in (TOP / "package/contents").read_text().splitlines() if not line.startswith("#")
    ]
    return {name: packed(TOP / name) for kind, path in lines if kind == part for name in known(path)}


def called(entry: Entry) -> Entry:
    """A text of the launcher as a package has it, where it is called lte_sec and not ./lte_sec."""
    return dataclasses.replace(entry, octets=re.sub(rb"(?<![\w./])\./lte_sec\b", b"lte_sec", entry.octets))


def folders(tree: Tree) -> list[str]:
    """The folders of a tree, each after the one that it is in."""
    return sorted({str(folder) for place in tree for folder in Path(place).parents} - {"."})


def members(tree: Tree, moment: int) -> Iterator[tuple[tarfile.TarInfo, bytes]]:
    for place in sorted([*folders(tree), *tree]):
        member, entry = tarfile.TarInfo(place), tree.get(place)
        member.mtime = moment
        member.mode = entry.mode if entry else 0o755
        if entry is None:
            member.type = tarfile.DIRTYPE
        elif entry.link:
            member.type, member.linkname, member.mode = tarfile.SYMTYPE, entry.link, 0o777
        else:
            member.size = len(entry.octets)
        yield member, entry.octets if entry else b""


def tarball(tree: Tree, moment: int) -> bytes:
    """The archive of a tree: names sorted, all of one time and of owner 0."""
    out = io.BytesIO()
    with tarfile.open(fileobj=out, mode="w", format=tarfile.PAX_FORMAT) as archive:
        for member, octets in members(tree, moment):
            archive.addfile(member, io.BytesIO(octets))
    return gzip.compress(out.getvalue(), 9, mtime=moment)


def lay(tree: Tree, folder: Path, moment: int) -> None:
    """Writes a tree into an empty folder, with the modes and times that it has in an archive."""
    for place in folders(tree):
        (folder / place).mkdir()
        (folder / place).chmod(0o755)
    for place, entry in tree.items():
        if entry.link:
            (folder / place).symlink_to(entry.link)
        else:
            (folder / place).write_bytes(entry.octets)
            (folder / place).chmod(entry.mode)
    for place in [*tree, *reversed(folders(tree))]:
        os.utime(folder / place, (moment, moment), follow_symlinks=False)

"""PROVED.txt: of what the packages are made, what of it is proved, and what that says."""
from __future__ import annotations

import hashlib
import os
import re
import textwrap
import time
from collections import Counter

from trees import TOP, Tree, known

LINK = re.compile(r"\[([^]]*)\]\(([^)]*)\)")


def sentences() -> str:
    """What README.md says is proved, as plain text, with its links as places among the pages."""
    text = (TOP / "README.md").read_text().split("\n## What is proved\n", 1)[1].split("\n## ", 1)[0]
    paragraphs = re.split(r"\n(?=- )|\n\n", LINK.sub(r"\1 (\2)", text).replace("**", "").strip())
    return "\n".join(
        textwrap.fill(" ".join(each.split()), 110, subsequent_indent="  " if each.startswith("- ") else "")
        for each in paragraphs
    )


def sources() -> list[str]:
    """The sum of all that is proved, and how it is made again in a checkout."""
    parts = [f"crates/*/{part}/*" for part in ("src", "specs", "proofs")]
    names = sorted(name for part in ("crates.txt", *parts) for name in known(part))
    listed = "".join(f"{hashlib.sha256((TOP / name).read_bytes()).hexdigest()}  {name}\n" for name in names)
    command = (
        f"git ls-files crates.txt {' '.join(repr(part) for part in parts)} | "
        "LC_ALL=C sort | xargs sha256sum | sha256sum"
    )
    return [
        (
            f"Sources of the programs and the library, {len(names)} files: SHA-256 "
            f"{hashlib.sha256(listed.encode()).hexdigest()}, which gives in a checkout"
        ),
        "",
        f"    {command}",
        "",
    ]


def of_python(works: Tree) -> list[str]:
    """What of the packages is Python."""
    folders = Counter(
        place.rpartition("/")[0]
        for place, entry in works.items()
        if place.endswith(".py") or entry.octets.startswith(b"#!/usr/bin/env python3")
    )
    lines = [f"    {folder:<24} {count} files" for folder, count in sorted(folders.items())]
    return [
        (
            "Python, which is tested and not proved; the words that docs/COMMANDS.md has and no program answers are "
            "of it alone:"
        ),
        "",
        *lines,
        "",
    ]


def statement(
    version: str, commit: str, toolchain: str, moment: int, kind: str, sums: dict[str, str], works: Tree
) -> str:
    verdict = "proved" if kind == "proved" else "built without proof"
    date = time.strftime("%Y-%m-%d", time.gmtime(moment))
    lines = [
        f"Seedspan {version}, of commit {commit} of {date}",
        f"Toolchain: {toolchain}",
        "",
        "Each program and library, whether it is proved, and its SHA-256 as packed:",
        "",
    ]
    lines += [f"    {name:<24} {verdict:<20} {octets}" for name, octets in sums.items()]
    lines += [
        "",
        (
            "Each program is linked of the object of its build with what it needs of the C library of the machine "
            "that packed it, which is trusted as one of"
        ),
        f"the system is: {os.confstr('CS_GNU_LIBC_VERSION')}.",
        "",
    ]
    lines += [*sources(), *of_python(works)]
    lines += [
        "What is proved, by README.md (files are those of the pages; docs/PROVED.md has the exact statements):"
        if kind == "proved"
        else (
            "NOTHING IN THESE PACKAGES IS PROVED. Where ./lte_sec package packs what is proved, this is so "
            "(files are those of the pages):"
        ),
        "",
    ]
    return "\n".join([*lines, sentences()]) + "\n"

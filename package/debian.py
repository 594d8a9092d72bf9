"""The Debian packages: what `dpkg-deb` is given, and where things lie in them."""
from __future__ import annotations

import dataclasses
import email.utils
import gzip
import hashlib
import os
import shutil
import subprocess
import textwrap
from pathlib import Path

from trees import Entry, Tree, below, lay

MAINTAINER = "Seedspan maintainers <maintainers@users.noreply.seedspan.example>"
# Python keeps what it compiles beside the scripts, and forgets it when they go.
COMPILES = (
    '#!/bin/sh\nset -e\nif [ "$1" = configure ] && command -v py3compile >/dev/null; then py3compile -p {name} '
    "/usr/lib/seedspan; fi\n"
)
FORGETS = "#!/bin/sh\nset -e\nif command -v py3clean >/dev/null; then py3clean -p {name}; fi\n"


# Why lintian takes a program for a library that names none: it has what it needs of the C library in it.
OVERRIDES = (
    "# Programs are linked with what they need of the C library in them, and are no libraries.\n{name}: "
    "shared-library-lacks-prerequisites [usr/lib/seedspan/programs/*]\n"
)
IN_ONE = (
    "# Header, static and shared library are one package: nothing that Debian ships needs the shared one "
    "alone.\n{name}: link-to-shared-library-in-wrong-package *\n{name}: package-name-doesnt-match-sonames *\n"
)


@dataclasses.dataclass(frozen=True)
class Package:
    """A Debian package: its name, what its control file says, its files below /usr, and further files of control."""

    name: str
    version: str
    fields: dict[str, str]
    about: str
    files: Tree
    control: dict[str, str]

    @property
    def file(self) -> str:
        return f"{self.name}_{self.version}_amd64.deb"


def zipped(text: str) -> Entry:
    return Entry(gzip.compress(text.encode(), 9, mtime=0))


def told(package: Package, commit: str, moment: int) -> Tree:
    """What each package tells of itself: its changes, and whose it is."""
    changes = (
        f"{package.name} ({package.version}) unstable; urgency=medium\n\n  * CHANGELOG.md has what changed. Packed "
        f"from commit\n    {commit}.\n\n"
        f" -- {MAINTAINER}  {email.utils.formatdate(moment)}\n"
    )
    rights = (
        "Format: https://www.debian.org/doc/packaging-manuals/copyright-format/1.0/\nUpstream-Name: seedspan\n\n"
        "Files: *\nCopyright: 2026 the authors of Seedspan\nLicense: none-chosen\n No licence has been chosen yet; "
        "the choice is the owner's. Until then all rights are the authors'.\n\n"
        "Files: usr/lib/seedspan/programs/*\nCopyright: 2026 the authors of Seedspan, and of the GNU C Library that "
        "is linked in: Free Software Foundation\nLicense: none-chosen and LGPL-2.1+\n"
        " The parts of the GNU C Library are under its own licence, LGPL 2.1 or later\n "
        "(/usr/share/common-licenses/LGPL-2.1).\n"
    )
    return below(f"share/doc/{package.name}", {"changelog.gz": zipped(changes), "copyright": Entry(rights.encode())})


def control(package: Package, tree: Tree) -> str:
    size = sum(-(-len(entry.octets) // 1024) for entry in tree.values())
    fields = {
        "Package": package.name,
        "Version": package.version,
        "Architecture": "amd64",
        "Maintainer": MAINTAINER,
        "Installed-Size": str(size),
        "Priority": "optional",
    }
    lines = [f"{name}: {value}" for name, value in (fields | package.fields).items()]
    return (
        "\n".join([*lines, *("\n".join(f" {line}" for line in textwrap.wrap(package.about, 76)).splitlines())]) + "\n"
    )


def build(package: Package, work: Path, into: Path, commit: str, moment: int) -> None:
    """Makes the package by dpkg-deb, which keeps the times and orders the names."""
    folder = work / package.name
    tree = below("usr", package.files | told(package, commit, moment))
    sums = "".join(
        f"{hashlib.md5(entry.octets).hexdigest()}  {place}\n" for place, entry in sorted(tree.items()) if not entry.link
    )
    own = {"control": control(package, tree), "md5sums": sums} | package.control
    scripts = {name for name in own if name in ("postinst", "prerm")}
    folder.mkdir()
    lay(
        tree | {f"DEBIAN/{name}": Entry(text.encode(), is_program=name in scripts) for name, text in own.items()},
        folder,
        moment,
    )
    folder.chmod(0o755)
    os.utime(folder, (moment, moment))
    # One thread, since with more xz parts what it packs by their number.
    settings = os.environ | {"SOURCE_DATE_EPOCH": str(moment), "DPKG_DEB_THREADS_MAX": "1"}
    subprocess.run(
        ["dpkg-deb", "--root-owner-group", "-Zxz", "--build", folder, into / package.file],
        env=settings,
        check=True,
        stdout=subprocess.DEVNULL,
    )
    shutil.rmtree(folder)


def seedspan(name: str, version: str, libc: str, trees: dict[str, Tree], others: str) -> Package:
    """The package of the command: what works in lib, pages in share/doc, man page and completions where the system
    looks for them."""
    home, room = "lib/seedspan", f"share/doc/{name}"
    files = below(home, trees["works"])
    files |= {
        f"{room}/{place}": Entry(link=os.path.relpath(f"{home}/{place}", os.path.dirname(f"{room}/{place}")))
        for place in trees["works"]
        if is_read(place)
    }
    files |= below(room, {place: entry for place, entry in trees["pages"].items() if place not in trees["works"]})
    files |= {
        "bin/lte_sec": Entry(link="../lib/seedspan/lte_sec"),
        f"{room}/lte_sec": Entry(link="../../../bin/lte_sec"),
    }
    files["share/lintian/overrides/" + name] = Entry(OVERRIDES.format(name=name).encode())
    for place, entry in trees["share"].items():
        files |= (
            {f"{place}.gz": Entry(gzip.compress(entry.octets, 9, mtime=0))}
            if place.startswith("share/man/")
            else {place: entry}
        )
    fields = {
        "Section": "comm",
        "Depends": f"{libc}, python3, python3 (>= 3.9) | python3.9",
        "Suggests": "tshark",
        **rivals("seedspan", name),
        "Description": "LTE access security computed and checked (TS 33.401)" + others,
    }
    about = (
        "Derives the keys of LTE access security, runs scenarios of a phone, stations and a core, judges "
        "captures and logs, and drives actors of a product beside the reference."
    )
    return Package(
        name,
        version,
        fields,
        about,
        files,
        {"postinst": COMPILES.format(name=name), "prerm": FORGETS.format(name=name)},
    )


def is_read(place: str) -> bool:
    """Whether what works is named by pages, which are read in their own folder."""
    return place.split("/")[0] in ("docs", "examples", "VERSION")


def library(name: str, version: str, libc: str, files: Tree, soname: str, others: str) -> Package:
    """The package of the library for C: header, shared and static library, and what pkg-config and CMake read."""
    fields = {
        "Section": "libdevel",
        "Depends": libc,
        **rivals("liblte-sec-dev", name),
        "Description": "library of LTE access security for C and C++" + others,
    }
    about = (
        "Derivations, ciphers, NAS messages, PDCP PDUs, short MACs and the chain of a phone, as calls that take "
        "no memory and keep nothing."
    )
    stem, _, number = soname.partition(".so.")
    files = {**files, f"share/lintian/overrides/{name}": Entry(IN_ONE.format(name=name).encode())}
    return Package(
        name,
        version,
        fields,
        about,
        files,
        {"triggers": "activate-noawait ldconfig\n", "shlibs": f"{stem} {number} {name} (>= {version})\n"},
    )


def rivals(usual: str, name: str) -> dict[str, str]:
    """What is built without proof has another name, and does not stand beside what is proved."""
    return {} if name == usual else {"Conflicts": usual, "Provides": usual}

"""Makes the wheel that `pip install ./python` installs: the package and the library beside it. It needs no network.

The library is the one that `./lte_sec library` leaves in library/built, or the file that LTE_SEC_LIBRARY names. With
one that was built without proof the wheel's version ends with +unproved. The times in the wheel are SOURCE_DATE_EPOCH,
or 1980, so that the same files give the same octets.
"""
from __future__ import annotations

import base64
import ctypes
import hashlib
import os
import platform
import re
import sys
import time
import zipfile
from pathlib import Path
from typing import Any

from lte_sec.runs import document

HERE = Path(__file__).resolve().parent
LIBRARY = Path(os.environ.get("LTE_SEC_LIBRARY") or HERE.parent / "library/built/liblte_sec.so")
OLDEST = 315_532_800  # 1980, before which there are no times in an archive of zip
PARTS = ("*.py", "py.typed", "page.js", "page.css")


def _version() -> str:
    """The version of the repository, and whether the library is proved."""
    version = (HERE.parent / "VERSION").read_text().strip()
    return (
        version if ctypes.CDLL(str(LIBRARY)).ltesec_proved() or version.endswith("+unproved") else f"{version}+unproved"
    )


def _tag() -> str:
    """The platforms on which the library loads: by the newest version of the C library that it names."""
    minors = [int(minor) for minor in re.findall(rb"\0GLIBC_2\.(\d+)(?=[.\0])", LIBRARY.read_bytes())]
    return f"py3-none-manylinux_2_{max([5, *minors])}_{platform.machine()}"


def _metadata(project: dict[str, Any], version: str) -> str:
    """What pip is told of the package, with the page of it."""
    lines = [
        f"Name: {project['name']}",
        f"Version: {version}",
        f"Summary: {project['description']}",
        f"Requires-Python: {project['requires-python']}",
    ]
    lines += [f"Classifier: {classifier}" for classifier in project["classifiers"]]
    page = (HERE / project["readme"]).read_text()
    return "\n".join(["Metadata-Version: 2.1", *lines, "Description-Content-Type: text/markdown", "", page])


def _record(name: str, content: bytes) -> str:
    """The line of a file in the wheel's record."""
    digest = base64.urlsafe_b64encode(hashlib.sha256(content).digest()).rstrip(b"=").decode()
    return f"{name},sha256={digest},{len(content)}\n"


def _contents(about: str, tag: str, version: str) -> dict[str, bytes]:
    """The files of the wheel, each by its name."""
    project = document.plain(document.read((HERE / "pyproject.toml").read_bytes()))["project"]
    files = {
        f"lte_sec/{path.relative_to(HERE / 'lte_sec').as_posix()}": path.read_bytes()
        for part in PARTS
        for path in sorted((HERE / "lte_sec").rglob(part))
    }
    files["lte_sec/words.txt"] = (HERE.parent / "launcher/words").read_bytes()
    files["lte_sec/tables.txt"] = (HERE.parent / "crates/lte_tables/stdout").read_bytes()
    files["lte_sec/liblte_sec.so"] = LIBRARY.read_bytes()
    files[f"{about}/METADATA"] = _metadata(project, version).encode()
    files[f"{about}/WHEEL"] = f"Wheel-Version: 1.0\nGenerator: backend\nRoot-Is-Purelib: false\nTag: {tag}\n".encode()
    files[f"{about}/entry_points.txt"] = "".join(
        ["[console_scripts]\n", *(f"{name} = {call}\n" for name, call in project["scripts"].items())]
    ).encode()
    record = "".join(_record(name, content) for name, content in files.items())
    return files | {f"{about}/RECORD": f"{record}{about}/RECORD,,\n".encode()}


def build_wheel(wheel_directory: str, config_settings: object = None, metadata_directory: str | None = None) -> str:
    """Writes the wheel into a folder, and answers its name."""
    if not LIBRARY.is_file():
        sys.exit(
            f"{LIBRARY} is not built: run ./lte_sec library; if it is elsewhere, name it, as "
            "LTE_SEC_LIBRARY=FOLDER/liblte_sec.so pip install ./python"
        )
    version, tag = _version(), _tag()
    stem = f"lte_sec-{version}"
    moment = time.gmtime(max(OLDEST, int(os.environ.get("SOURCE_DATE_EPOCH") or OLDEST)))
    with zipfile.ZipFile(Path(wheel_directory) / f"{stem}-{tag}.whl", "w") as wheel:
        for place, content in _contents(f"{stem}.dist-info", tag, version).items():
            entry = zipfile.ZipInfo(place, moment[:6])
            entry.external_attr = (0o100755 if place.endswith(".so") else 0o100644) << 16
            wheel.writestr(entry, content, zipfile.ZIP_DEFLATED)
    return f"{stem}-{tag}.whl"

"""The crates of the repository, and how the toolchain checks one of them with edits in it."""
import dataclasses
import functools
import os
import pathlib
import shutil
import signal
import subprocess
import tempfile

from batches.edits import Texts

PARTS = ("src", "specs", "proofs")

# The checks that run, by their ids, with the folder of each.
RUNNING: dict[int, str] = {}


class Unfit(Exception):
    """Why nothing can be tried, and what to do."""


@dataclasses.dataclass(frozen=True)
class Crate:
    """A crate: its folder, its line in crates.txt, the repository's crates that it names, and the libraries of the
    toolchain."""

    name: str
    folder: pathlib.Path
    line: str
    is_static: bool
    named: tuple["Crate", ...]
    of_kit: tuple[str, ...]

    @functools.cached_property
    def below(self) -> tuple["Crate", ...]:
        """All crates that it stands on, lowest first."""
        return tuple(dict.fromkeys(it for one in self.named for it in (*one.below, one)))

    @property
    def root_file(self) -> str:
        """The file that its modules begin with."""
        return "src/main.rt" if (self.folder / "src/main.rt").is_file() else "src/lib.rt"

    @property
    def library(self) -> pathlib.Path:
        """Where its library stands once it is built."""
        return self.folder / "out" / "rlib" / f"{self.name}.rlib"

    def texts(self) -> Texts:
        """The texts of its code, definitions and proofs, by path."""
        files = [it for part in PARTS for it in sorted((self.folder / part).rglob("*")) if it.is_file()]
        return {str(it.relative_to(self.folder)): it.read_text("utf-8") for it in files}

    def newest(self) -> float:
        """When one of its files was last changed."""
        return max(
            it.stat().st_mtime
            for part in PARTS
            for it in [self.folder / part, *(self.folder / part).rglob("*")]
            if it.exists()
        )


def read_crates(top: pathlib.Path) -> dict[str, Crate]:
    """The crates that crates.txt names, by name."""
    lines = {}
    for line in (top / "crates.txt").read_text("utf-8").split("\n"):
        words, is_crate, names = line.partition("#")[0].partition(":")
        if is_crate:
            lines[words.split()[0]] = line, words.split()[1:], names.split()
    made: dict[str, Crate] = {}

    def make(name: str) -> Crate:
        if name not in made:
            line, words, names = lines[name]
            inner, outer = tuple(make(it) for it in names if it in lines), tuple(it for it in names if it not in lines)
            made[name] = Crate(name, top / "crates" / name, line, "staticlib" in words, inner, ("std", *outer))
        return made[name]

    for name in lines:
        make(name)
    return made


@functools.cache
def kit() -> pathlib.Path:
    """Where the toolchain stands."""
    found = shutil.which("rt")
    if not found:
        raise Unfit("there is no rt on the path: install the toolchain")
    return pathlib.Path(found).resolve().parent.parent


@functools.cache
def version() -> str:
    """The line that names the toolchain."""
    return subprocess.run(["rt", "version"], capture_output=True, text=True, check=True).stdout.strip()


def words_of(crate: Crate, work: str = "check") -> list[str]:
    """The command that checks or builds a crate over the libraries below it, in a folder with its files."""
    words = [str(kit() / "bin/rattle"), work, "--crate-name", crate.name, crate.root_file]
    for name in crate.of_kit:
        words += ["--extern", f"{name}={kit() / 'rlibs' / name}.rlib"]
    words += ["-L", f"dependency={kit() / 'rlibs'}"]
    for it in crate.named:
        words += ["--extern", f"{it.name}={it.library}"]
    for it in crate.below:
        words += ["-L", f"dependency={it.library.parent}"]
    words += [
        "--antt-project",
        str(kit() / "rattle/logic/antt-project.json"),
        "--logic-built",
        str(kit() / "logic_built"),
    ]
    return [
        *words,
        "--links",
        f"{crate.name}=",
        *(["--crate-type", "staticlib"] if crate.is_static else []),
        "--jobs",
        "1",
    ]


def is_left_by_gate(crate: Crate) -> bool:
    """Whether the libraries below a crate stand there as `rt ci` built them, right after it: with no stamp of a
    session's check, and newer than the files that they were built from."""
    stamped = any((it.folder / "out/rlib/stamp").exists() for it in crate.below)
    return not stamped and all(it.library.is_dir() and is_newer(it) for it in crate.below)


def build_libraries(crate: Crate) -> None:
    """Sees to the libraries below a crate. Where `rt ci` has just built them, they are taken. Else rt builds those that
    changed, and begins with what checks of the crate kept on this machine."""
    if is_left_by_gate(crate):
        return
    words = ["rt", "check", "--only", ""]
    with tempfile.TemporaryDirectory(prefix="edits-") as room:
        ran = run(words, str(crate.folder), room)
    if ran.status:
        last = ran.text.strip().split("\n")[-1]
        raise Unfit(f"nothing can be tried over {crate.name} as it stands: run rt check in its folder. It said: {last}")


def is_newer(crate: Crate) -> bool:
    """Whether a library was built after all that it is made of was written."""
    built = crate.library.stat().st_mtime
    return all(it.newest() <= built for it in (*crate.below, crate))


@dataclasses.dataclass(frozen=True)
class Ran:
    """How a check ended, what it said and the seconds of processor that it took."""

    status: int
    text: str
    seconds: float


def check(crate: Crate, texts: Texts, only: list[str]) -> Ran:
    """Checks a copy of a crate with these texts past its open goals: these functions and what they call, or all where
    none is named. It begins with what checks in the crate's folder kept, if they did."""
    with tempfile.TemporaryDirectory(prefix="edits-") as room:
        for path, text in texts.items():
            file = pathlib.Path(room, "copy", path)
            file.parent.mkdir(parents=True, exist_ok=True)
            file.write_text(text, "utf-8")
        words = [*words_of(crate), "--allow-holes", *(word for it in only for word in ("--only", it))]
        try:
            copy_kept(crate.folder / "out/incremental", pathlib.Path(room, "kept"))
            words += ["--incremental", f"{room}/kept"]
        except OSError:
            pass  # nothing is kept, or another check writes it
        return run(words, f"{room}/copy", room)


def run(words: list[str], folder: str, room: str) -> Ran:
    """Runs a command in a folder, with what it says in a file of the room."""
    with open(f"{room}/said", "wb+") as said:
        ran = subprocess.Popen(words, cwd=folder, stdin=subprocess.DEVNULL, stdout=said, stderr=subprocess.STDOUT)
        RUNNING[ran.pid] = room
        _, status, used = os.wait4(ran.pid, 0)
        del RUNNING[ran.pid]
        ran.returncode = os.waitstatus_to_exitcode(status)
        said.seek(0)
        return Ran(ran.returncode, said.read().decode("utf-8", "replace"), used.ru_utime + used.ru_stime)


def end_all(number: int, _frame: object) -> None:
    """Ends the checks that run, and then the command, at a signal that ends it."""
    for process, room in list(RUNNING.items()):
        os.kill(process, signal.SIGKILL)
        shutil.rmtree(room, ignore_errors=True)
    os._exit(128 + number)


def copy_kept(kept: pathlib.Path, to: pathlib.Path) -> None:
    """Copies what checks kept, what was proved by links: a check replaces such a file and never writes into it."""

    def copy(one: str, other: str) -> str:
        if one.endswith(".oantt"):
            try:
                os.link(one, other)
                return other
            except OSError:
                pass  # another disk
        return str(shutil.copy2(one, other))

    shutil.copytree(kept, to, symlinks=True, copy_function=copy)

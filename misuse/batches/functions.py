"""In which function a place of a source file stands. The file is laid out, so that a function ends where its closing
brace stands right below its first column."""
from __future__ import annotations

import dataclasses
import re

STARTS = re.compile(r'( *)(?:pub(?:\([^)]*\))? )?(?:const )?(?:unsafe )?(?:extern "C" )?fn (\w+)')
IMPL = re.compile(r"impl\b")


@dataclasses.dataclass(frozen=True)
class Function:
    """A function by the path that the prover names it by, below its crate: `module::Type::call` with the module of the
    type, and `module::TypeTrait::call` with that of the block for a method of a trait."""

    path: str

    def has(self, path: str) -> bool:
        """Whether this path is the function's, or that of a closure or a function in it."""
        inside = path.replace("::fn::", "::").removeprefix("fn::")
        return inside == self.path or inside.startswith(f"{self.path}::")


def function_at(path: str, texts: dict[str, str], start: int, end: int) -> Function | None:
    """The function in whose body a piece of that file lies, if it lies in one. The texts are those of the crate, by
    path."""
    text = texts[path]
    lines = text.split("\n")
    first, last = text.count("\n", 0, start), text.count("\n", 0, end)
    for at in range(first, -1, -1):
        found = STARTS.match(lines[at])
        if found and first > body_of(lines, at, found[1]) and last < end_of(lines, at, found[1]):
            owner = owner_at(lines, at, found[1], texts, path)
            if owner is not None:
                return Function("::".join([*owner, found[2]]))
    return None


def body_of(lines: list[str], at: int, indent: str) -> int:
    """The line that opens the body of the function that begins there."""
    opens = (it for it in range(at, len(lines)) if is_at(lines[it], indent) and lines[it].endswith("{"))
    return next(opens, len(lines))


def end_of(lines: list[str], at: int, indent: str) -> int:
    """The line that closes what begins there."""
    return next((it for it in range(at, len(lines)) if lines[it] == f"{indent}}}"), -1)


def is_at(line: str, indent: str) -> bool:
    """Whether the text of a line begins in that column."""
    return line.startswith(indent) and not line[len(indent) :].startswith(" ")


def module_of(path: str) -> list[str]:
    """The modules of a file below src/."""
    parts = path.removeprefix("src/").removesuffix(".rt").split("/")
    return [] if parts in (["lib"], ["main"]) else parts[:-1] if parts[-1] == "mod" else parts


def owner_at(lines: list[str], at: int, indent: str, texts: dict[str, str], path: str) -> list[str] | None:
    """The path of what a function begins in, a module or a block of a type: none where it stands inside another
    function."""
    if not indent:
        return module_of(path)
    for above in range(at, -1, -1):
        if is_at(lines[above], "") and IMPL.match(lines[above]):
            return block(header(lines, above), texts, path)
        if is_at(lines[above], "") and STARTS.match(lines[above]):
            return None
    return None


def header(lines: list[str], at: int) -> str:
    """The head of the block that begins there, in one line."""
    whole = " ".join(it.strip() for it in lines[at : at + 12])
    return whole.partition("{")[0].strip()


def block(head: str, texts: dict[str, str], path: str) -> list[str]:
    """The path of an `impl` block. Where a type has a trait several times, the trait's arguments follow the names of
    both."""
    behind = without_arguments(head.removeprefix("impl"), drops_first=True)[0].partition(" where ")[0]
    named, trait_arguments = without_arguments(behind)
    trait, is_trait, of = named.partition(" for ")
    if not is_trait:
        return [*home_of(last_word(trait), texts, path), last_word(trait)]
    again = re.compile(rf"(?m)^impl(?:<[^{{]*?>)? (?:\w+::)*{last_word(trait)}<.*> for {last_word(of)}\b")
    several = len(again.findall(texts[path])) > 1
    return [
        *module_of(path),
        last_word(of) + last_word(trait) + ("".join(re.findall(r"\w+", trait_arguments)) if several else ""),
    ]


def home_of(name: str, texts: dict[str, str], path: str) -> list[str]:
    """The module in which a type is declared."""
    declares = re.compile(rf"(?m)^(?:pub(?:\([^)]*\))? )?(?:struct|enum) {name}\b")
    files = [it for it in (path, *texts) if it.startswith("src/") and declares.search(texts[it])]
    return module_of(files[0] if files else path)


def last_word(path: str) -> str:
    """The last word of a path."""
    return path.strip().rpartition("::")[2].strip(" &")


def without_arguments(text: str, drops_first: bool = False) -> tuple[str, str]:
    """The text without what stands in angle brackets, and the first such piece. `drops_first` takes away that piece
    alone."""
    kept, first, depth, pieces = "", "", 0, 0
    for at, letter in enumerate(text):
        is_arrow = letter == ">" and text[at - 1 : at] in ("-", "=")
        if letter == "<":
            depth += 1
            pieces += depth == 1
        if depth and pieces == 1:
            first += letter
        if not depth or drops_first and (pieces > 1 or kept.strip()):
            kept += letter
        if letter == ">" and not is_arrow:
            depth -= 1
    return kept, first

#!/usr/bin/env python3
"""The rows of crates and of Python modules in MAP, made of what these say of themselves: python3 docs/mapped.py writes
them.

A row names its crates by links to their pages, one of modules their package; packages stand in the order in which they
import one another. What it says of them is the first sentence of each page or module, up to a colon, so that each is
described in one place. docs/check compares."""
import ast
import pathlib
import re

TOP = pathlib.Path(__file__).resolve().parent.parent
MAP = TOP / "docs/MAP.md"
ROW = re.compile(r"^\| (\[\w+\]\(\.\./crates/\w+/README\.md\).*?) \| .* \|$", re.MULTILINE)
CRATE = re.compile(r"\(\.\./crates/(\w+)/README\.md\)")
NAMES = ("KeNB", "Security Mode", "Service Request")
PACKAGE = TOP / "python/lte_sec"
MODULES = "\n## The Python package\n"
MODULE_ROW = re.compile(r"^\| `(lte_sec(?:\.\w+)?)`.* \| .* \|$", re.MULTILINE)


def beginning(sentence: str) -> str:
    """A sentence as a part of a row."""
    return (
        sentence[0].lower() + sentence[1:]
        if re.match(r"[A-Z][a-z ]", sentence) and not sentence.startswith(NAMES)
        else sentence
    )


def sentence_of(crate: str) -> str:
    """The first sentence of a crate's page, up to a colon behind three words or more."""
    paragraph = " ".join((TOP / "crates" / crate / "README.md").read_text().split("\n\n")[1].split())
    sentence = re.split(r"\.(?: |$)", paragraph)[0]
    if len(sentence.partition(": ")[0].split()) > 2:
        sentence = sentence.partition(": ")[0]
    return beginning(sentence.replace("](../../docs/", "](").replace("](../", "](../crates/"))


def words_of(file: pathlib.Path) -> str:
    """The first sentence of a module, without a page that it names, and but for a package up to a colon."""
    told = ast.get_docstring(ast.parse(file.read_text())) or "?"
    first = re.split(
        r"\.(?: |$)" if file.parent != PACKAGE and file.stem == "__init__" else r"\.(?: |$)|: ",
        " ".join(told.split("\n\n")[0].split()),
    )[0]
    return beginning(re.sub(r" \(docs/[^)]*\)", "", first))


def row_of(package: str) -> str:
    """The row of a package: what it has, and its modules, each with its first sentence."""
    folder = PACKAGE.joinpath(*package.split(".")[1:])
    modules = "; ".join(
        f"`{file.stem}`: {words_of(file)}" for file in sorted(folder.glob("*.py")) if file.stem != "__init__"
    )
    return f"| `{package}`: {words_of(folder / '__init__.py')} | {modules} |"


def mapped(text: str) -> str:
    """The page with the rows of its crates as their pages have them, and those of modules as these have them."""
    crates, heading, modules = text.partition(MODULES)
    crates = ROW.sub(lambda row: f"| {row[1]} | {'; '.join(sentence_of(it) for it in CRATE.findall(row[1]))} |", crates)
    return (
        crates
        + heading
        + MODULE_ROW.sub(
            lambda row: row_of(row[1]) if PACKAGE.joinpath(*row[1].split(".")[1:]).is_dir() else row[0], modules
        )
    )


def unlike(kind: str, named: list[str], there: list[str]) -> list[str]:
    """Complaints about what has no row or two, and about rows of what is not there."""
    told = "name it in a row as the others are, and run docs/mapped.py"
    return [
        f"docs/MAP.md has {named.count(it)} rows of {kind} {it}: {told if it in there else 'it is not there'}"
        for it in sorted({*named, *there})
        if named.count(it) != (it in there)
    ]


def faults() -> list[str]:
    """Complaints about rows that are not as crates and modules have them, and about those with no row or two."""
    text = MAP.read_text()
    modules = text.partition(MODULES)[2]
    wrong = unlike(
        "the crate",
        [it for row in ROW.finditer(text) for it in CRATE.findall(row[1])],
        [page.parent.name for page in TOP.glob("crates/*/README.md")],
    )
    packages = ["lte_sec", *(f"lte_sec.{file.parent.name}" for file in PACKAGE.glob("*/__init__.py"))]
    wrong += unlike("the package", [row[1] for row in MODULE_ROW.finditer(modules)], packages)
    return wrong + (
        []
        if mapped(text) == text
        else ["docs/MAP.md: rows are not the first sentences of crates and modules: python3 docs/mapped.py writes them"]
    )


if __name__ == "__main__":
    MAP.write_text(mapped(MAP.read_text()))

"""Names and places: each class of the package, each type that a module names, and each module has a name of its own, so
that a search for it finds one thing, and a package imports only from those whose rows stand above its own in
docs/MAP.md."""
import ast
import pathlib
import re
import unittest
from collections.abc import Iterator

PACKAGE = pathlib.Path(__file__).resolve().parent.parent / "lte_sec"
MAP = PACKAGE.parents[1] / "docs/MAP.md"


def names_of(module: ast.Module) -> Iterator[str]:
    """The names of its classes, and of the types that stand right in it, as `Cell = tuple[int, int]`."""
    for node in ast.walk(module):
        if isinstance(node, ast.ClassDef):
            yield node.name
    for line in module.body:
        if isinstance(line, ast.Assign):
            yield from (
                it.id
                for it in line.targets
                if isinstance(it, ast.Name) and not it.id.isupper() and not it.id.startswith("_")
            )


def modules_by_name() -> dict[str, list[str]]:
    """The modules that define a type of each name."""
    found: dict[str, list[str]] = {}
    for module in sorted(PACKAGE.rglob("*.py")):
        for name in names_of(ast.parse(module.read_text())):
            found.setdefault(name, []).append(module.stem)
    return found


def packages_of(file: pathlib.Path) -> Iterator[str]:
    """The packages of which a module imports something, also where it does so late."""
    for node in ast.walk(ast.parse(file.read_text())):
        if isinstance(node, ast.ImportFrom) and node.level == 2:
            yield from [node.module.split(".")[0]] if node.module else [it.name for it in node.names]


class Names(unittest.TestCase):
    def test_no_two_types_have_one_name(self) -> None:
        self.assertEqual({}, {name: modules for name, modules in modules_by_name().items() if len(modules) > 1})

    def test_no_two_modules_have_one_name(self) -> None:
        names = [module.stem for module in PACKAGE.rglob("*.py") if module.stem != "__init__"]
        self.assertEqual([], sorted({name for name in names if names.count(name) > 1}))

    def test_a_package_imports_from_those_above_it(self) -> None:
        order = re.findall(r"^\| `lte_sec\.(\w+)`", MAP.read_text(), re.MULTILINE)
        upward = [
            (file.stem, other)
            for place, package in enumerate(order)
            for file in (PACKAGE / package).glob("*.py")
            for other in packages_of(file)
            if other in order[place + 1 :]
        ]
        self.assertEqual([], upward)


if __name__ == "__main__":
    unittest.main()

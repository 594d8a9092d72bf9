"""Where edits stand, and which of them go together."""
from __future__ import annotations

import pathlib
import tempfile
import unittest

from batches import plan, table
from batches.crates import Crate, read_crates
from batches.edits import Change, Edit, Placed, Stale, place, put_into, read_edit
from batches.functions import Function, function_at
from batches.kept import Kept, crate_sum
from batches.said import Kind, Verdict

TEXT = """use std::fmt;

const MOST: usize = 8;

impl Counter {
    /// Adds one.
    pub fn add(&mut self, by: u8) -> u8
        ensures sum { result ≡ self.old.count + by }
    {
        self.count += by;
        self.count
    }

    pub(crate) fn get(&self) -> u8 {
        self.count
    }
}

impl<T: Copy> From<Few<T>> for Fault {
    fn from(_: Few<T>) -> Fault {
        Fault::Few
    }
}

impl From<AllocError> for Fault {
    fn from(_: AllocError) -> Fault {
        Fault::Memory
    }
}

impl<'a> Source for Text<'a> {
    fn read(&mut self) -> usize {
        self.left
    }
}

#[unsafe(no_mangle)]
pub extern "C" fn count(
    octets: *const u8,
) -> usize
    requires { ⊤ }
{
    MOST
}
"""
TEXTS = {"src/text/counter.rt": TEXT, "src/types.rt": "pub(crate) struct Counter {\n    count: u8,\n}\n"}


def edit(*pairs: tuple[str, str], name: str = "one") -> Edit:
    """An edit of the text."""
    return Edit("crate", name, b"", tuple(Change("src/text/counter.rt", old, new) for old, new in pairs))


def path_at(old: str) -> str | None:
    """The function in whose body a text stands."""
    start = TEXT.index(old)
    found = function_at("src/text/counter.rt", TEXTS, start, start + len(old))
    return found.path if found else None


class Functions(unittest.TestCase):
    """In which function a text stands."""

    def test_method_by_its_type_and_the_module_of_that(self) -> None:
        self.assertEqual(path_at("self.count += by"), "types::Counter::add")
        self.assertEqual(path_at("        self.count\n    }\n}"), None)

    def test_method_of_a_trait_by_both(self) -> None:
        self.assertEqual(path_at("self.left"), "text::counter::TextSource::read")

    def test_trait_that_a_type_has_twice(self) -> None:
        self.assertEqual(path_at("Fault::Few"), "text::counter::FaultFromFewT::from")
        self.assertEqual(path_at("Fault::Memory"), "text::counter::FaultFromAllocError::from")

    def test_function_for_c(self) -> None:
        self.assertEqual(path_at("    MOST"), "text::counter::count")

    def test_contract_signature_and_constant_stand_in_no_body(self) -> None:
        for old in ("self.old.count + by", "by: u8", "MOST: usize = 8"):
            self.assertIsNone(path_at(old), old)

    def test_root_of_the_crate(self) -> None:
        text = "fn one() -> u8 {\n    1\n}\n"
        for path, wanted in (("src/lib.rt", "one"), ("src/main.rt", "one"), ("src/a/mod.rt", "a::one")):
            self.assertEqual(getattr(function_at(path, {path: text}, 21, 22), "path", None), wanted)


class Edits(unittest.TestCase):
    """Reading edits and putting them into a text."""

    def test_file_is_read_line_by_line(self) -> None:
        with tempfile.TemporaryDirectory() as room:
            file = pathlib.Path(room, "wrong.edit")
            file.write_text("why it is wrong\nfile: src/a.rt\nold:   x + 1\nnew:   x\n", "utf-8")
            self.assertEqual(read_edit(file).changes, (Change("src/a.rt", "  x + 1", "  x"),))
            file.write_text("old: x\nnew: y\n", "utf-8")
            self.assertRaises(Stale, read_edit, file)

    def test_old_text_stands_once(self) -> None:
        for old in ("nowhere", "self.count"):
            self.assertRaises(Stale, put_into, edit((old, "x")), TEXTS)

    def test_change_of_nothing_is_refused(self) -> None:
        self.assertRaises(Stale, put_into, edit(("self.left", "self.left")), TEXTS)

    def test_edit_of_two_functions(self) -> None:
        found = place(edit(("self.left", "0"), ("    MOST", "    7")), TEXTS)
        self.assertEqual(
            [it.path for it in found.functions], ["text::counter::TextSource::read", "text::counter::count"]
        )

    def test_import_beside_a_body_changes_nothing_else(self) -> None:
        self.assertEqual(
            [it.path for it in self.functions_of(("use std::fmt;", "use std::mem;"), ("    MOST", "    7"))],
            ["text::counter::count"],
        )
        self.assertEqual(self.functions_of(("use std::fmt;", "use std::mem;")), ())

    def functions_of(self, *pairs: tuple[str, str]) -> tuple[Function, ...]:
        """The functions that an edit stands in."""
        return place(edit(*pairs), TEXTS).functions

    def test_edit_that_also_changes_a_constant_is_alone(self) -> None:
        self.assertTrue(place(edit(("self.left", "0"), ("= 8", "= 9")), TEXTS).is_alone)


class Batches(unittest.TestCase):
    """Which edits go together."""

    def placed(self, *pairs: tuple[str, str], name: str = "one") -> Placed:
        return place(edit(*pairs, name=name), TEXTS)

    def test_two_of_one_function_go_apart(self) -> None:
        one, other, third = (
            self.placed(("+= by", "-= by")),
            self.placed(("+= by", "+= 1")),
            self.placed(("self.left", "0")),
        )
        self.assertEqual(plan.batches([one, other, third], TEXTS), [(one, third), (other,)])

    def test_constant_goes_by_itself(self) -> None:
        one, other, third = (
            self.placed(("+= by", "-= by")),
            self.placed(("= 8", "= 9")),
            self.placed(("self.left", "0")),
        )
        self.assertEqual(plan.batches([one, other, third], TEXTS), [(one, third), (other,)])

    def test_edit_whose_new_text_is_the_old_of_another_goes_apart(self) -> None:
        one, other = self.placed(("Fault::Few\n", "Fault::Memory\n")), self.placed(("Fault::Memory", "Fault::Few"))
        self.assertEqual(plan.batches([one, other], TEXTS), [(one,), (other,)])

    def test_halves(self) -> None:
        self.assertEqual(plan.halves((1, 2, 3)), [(1,), (2, 3)])  # type: ignore[arg-type]


class Keeping(unittest.TestCase):
    """What was refused is kept by all that it read."""

    def test_found_until_something_changes(self) -> None:
        with tempfile.TemporaryDirectory() as room:
            crate, kept, of_it = (
                self.crates(pathlib.Path(room), "1"),
                Kept(pathlib.Path(room, "kept")),
                edit(("a", "b")),
            )
            refused = Verdict(Kind.REFUSED, "f", ("returns",))
            kept.keep(crate, of_it, refused)
            self.assertEqual(kept.find(crate, of_it), refused)
            self.assertIsNone(kept.find(crate, edit(("a", "b"), name="other")))
            for it in ("2", "3"):
                self.assertIsNone(kept.find(self.crates(pathlib.Path(room), it), of_it))

    def test_what_was_not_refused_is_not_kept(self) -> None:
        with tempfile.TemporaryDirectory() as room:
            crate, kept = self.crates(pathlib.Path(room), "1"), Kept(pathlib.Path(room, "kept"))
            kept.keep(crate, edit(("a", "b")), Verdict(Kind.WEAK, "f", ("returns",)))
            self.assertIsNone(kept.find(crate, edit(("a", "b"))))

    def crates(self, top: pathlib.Path, text: str) -> Crate:
        """The upper one of two crates, the lower one with this text."""
        (top / "crates.txt").write_text("# name\nlow:\nhigh: low hex\n", "utf-8")
        for name, said in (("low", text), ("high", "")):
            (top / "crates" / name / "src").mkdir(parents=True, exist_ok=True)
            (top / "crates" / name / "src/lib.rt").write_text(said, "utf-8")
        crate_sum.cache_clear()
        high = read_crates(top)["high"]
        self.assertEqual(([it.name for it in high.below], high.of_kit), (["low"], ("std", "hex")))
        return high


class Table(unittest.TestCase):
    """The table of what was refused."""

    def test_renewed_and_compared_by_crate(self) -> None:
        old = {("a", "x"): "a x f one", ("b", "y"): "b y g two"}
        new = dict([table.row(Edit("a", "z", b"", ()), Verdict(Kind.REFUSED, "f", ("one",)))])
        self.assertEqual(table.differences(old, new, {"a"}), ["- a x f one", "+ a z f one"])
        self.assertEqual(table.differences(old, {("a", "x"): "a x f two"}, {"a"}), ["- a x f one", "+ a x f two"])
        self.assertEqual(
            table.differences(old, {("a", "x"): "a x f one two"}, {"a"}), ["- a x f one", "+ a x f one two"]
        )
        self.assertEqual(table.differences(old, {("a", "x"): "a x f one"}, {"a"}), [])
        self.assertEqual(
            table.differences(old, {("b", "y"): "b y g two", ("b", "z"): "b z g one"}, {"b"}), ["+ b z g one"]
        )
        self.assertEqual(table.renewed(old, new, {"a"}), {("a", "z"): "a z f one", ("b", "y"): "b y g two"})
        with tempfile.TemporaryDirectory() as room:
            file = pathlib.Path(room, "refused")
            self.assertEqual(table.read_table(file), {})
            table.write_table(file, old)
            self.assertEqual(table.read_table(file), old)


if __name__ == "__main__":
    unittest.main()

"""Tests of the list of bodies that make evidence that memory was refused."""
import pathlib
import unittest

from batches.bodies import bodies_in, differences, read_list

MISUSE = pathlib.Path(__file__).resolve().parents[2]
LISTED = read_list((MISUSE / "bodies").read_text())


class TheList(unittest.TestCase):
    def test_the_code_is_that_of_the_list(self) -> None:
        self.assertEqual(differences(MISUSE.parent / "crates", LISTED), [])

    def test_another_body_and_one_that_is_not_listed_are_named(self) -> None:
        for changed in ("growth/lists.rt reserve", "edge_io/host.rt start"):
            with self.subTest(changed):
                self.assertEqual(
                    differences(MISUSE.parent / "crates", {**LISTED, changed: "Err(AllocError)"}), [changed]
                )
        self.assertEqual(
            differences(
                MISUSE.parent / "crates", {name: LISTED[name] for name in LISTED if name != "growth/maps.rt insert"}
            ),
            ["growth/maps.rt insert"],
        )

    def test_a_body_is_what_stands_between_its_braces(self) -> None:
        text = (
            "pub fn a<T>(x: T) -> u8\n    ensures { All (λ y. y ≡ y) x }\n{\n    let y = 1;\n    y\n}\n\ntrait B "
            "{\n    fn c(&self)\n        ensures { d };\n}\n\nimpl B for E {\n    fn c(&self) {\n        f()\n   "
            " }\n\n    fn g() {}\n}\n"
        )
        self.assertEqual(list(bodies_in(text.split("\n"))), [("a", "let y = 1; y"), ("c", "f()"), ("g", "")])


if __name__ == "__main__":
    unittest.main()

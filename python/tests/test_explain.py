"""Which derivation a key is: keys of a run and of a log, hexdumps, algorithm keys by half, and cells that are mixed."""
from __future__ import annotations

import hmac
import re
import unittest
from pathlib import Path

from lte_sec.common import quick
from lte_sec.common import mistakes as reasons
from lte_sec.captures.cells import Cells, Site
from lte_sec.traces.dumps import blocks, candidates
from lte_sec.traces.explanation import OF_ANY, OTHER_COUNTS, ExplainedKey, Explanation, told
from lte_sec.judge.search import DerivationSearch
from lte_sec.common.terms import Derivations, Kasme

from .standin import StandIn

TOP = Path(__file__).resolve().parents[2]
ROW = re.compile(r"row (\d+) (\S+) ([0-9a-f]{64}) ")
LOG_KASME = "6f1d9a0c55e2473bb8a4c07e12f3d96a80bc4e7719d2053fe6a1b8c4d7720e95"


def explained(text: str, kasme: str, cells: list[tuple[int, int]]) -> tuple[Derivations, list[ExplainedKey]]:
    derivations = Derivations(StandIn(), [Kasme("KASME 1", bytes.fromhex(kasme))])
    sites = Cells(Site(place, pci, earfcn) for place, (pci, earfcn) in enumerate(cells))
    return derivations, Explanation(derivations, sites, 300, 16).find(blocks(text.splitlines()))


def forms(report: str) -> list[tuple[str, str]]:
    """The keys of a report with their terms, spelt out by the rows that they name."""
    terms: dict[str, str] = {}
    for row, form, _ in ROW.findall(report):
        kind, _, rest = form.partition("(")
        words = rest.rstrip(")").split(",")
        if kind == "root":
            terms[row] = "kasme"
        elif kind == "kenb":
            terms[row] = f"kenb({words[1]})"
        elif kind == "nh":
            before = re.match(r"nh\((\d+)\)", terms[words[1]])
            terms[row] = f"nh({int(before[1]) + 1 if before else 1})"
        else:
            terms[row] = f"{kind}({terms[words[0]]},{words[1]},{words[2]})"
    return [(key, terms[row]) for row, _, key in ROW.findall(report)]


class Quick(unittest.TestCase):
    """The search makes its keys by `quick`, and shows those that the proved calls make again."""

    def test_it_is_hmac(self) -> None:
        for size in (0, 16, 32, 64):
            make = quick.ready(bytes(range(size)))
            self.assertEqual(
                [hmac.digest(bytes(range(size)), text, "sha256") for text in (b"", b"a", bytes(200))],
                [make(text) for text in (b"", b"a", bytes(200))],
            )

    def test_stars_are_those_of_the_proved_calls_in_their_order(self) -> None:
        derivations = Derivations(StandIn(), [Kasme("KASME 1", bytes(32))])
        search = DerivationSearch(derivations, Cells([Site(0, 301, 1575), Site(1, 87, 70000)]))
        keys = [derivations.kenb(0, 0), derivations.next_nh(0, derivations.kenb(0, 0))]
        for deep in (1, 2, 3):
            wanted = list(search.stars(keys, deep))
            made = list(search.made_stars(((key.value, key, ()) for key in keys), deep))
            self.assertEqual([key.value for key in wanted], [value for value, _, _ in made])
            self.assertEqual([key.term.cells()[::-1] for key in wanted], [list(cells) for _, _, cells in made])

    def test_what_the_proved_calls_do_not_give_is_not_found(self) -> None:
        class Wrong(StandIn):
            def kenb_star(self, key: bytes, pci: int, earfcn: int) -> bytes:
                return bytes(32)

        key = StandIn().kenb_star(StandIn().kenb(bytes(32), 0), 301, 1575)
        for calls, is_found in ((StandIn(), True), (Wrong(), False)):
            explanation = Explanation(
                Derivations(calls, [Kasme("KASME 1", bytes(32))]), Cells([Site(0, 301, 1575)]), 3, 2
            )
            explanation.seek({key})
            self.assertEqual(is_found, key in explanation.found)


class Explained(unittest.TestCase):
    def test_each_key_of_two_runs(self) -> None:
        for name, cells in (("eight-ahead", [(10, 100), (11, 101)]), ("ordinary", [(10, 100), (11, 101)])):
            report = (TOP / f"examples/run/{name}.out").read_text()
            wanted = forms(report)
            _, found = explained("\n".join(key for key, _ in wanted), wanted[0][0], cells)
            self.assertEqual([(one.value.hex(), one.key.form if one.key else "none") for one in found], wanted)

    def test_the_wrong_key_of_the_log(self) -> None:
        log = (TOP / "docs/cookbook/handover.log").read_text()
        derivations, found = explained(log, LOG_KASME, [(301, 1575), (87, 3100)])
        self.assertEqual(
            [told(derivations, one).split(maxsplit=3)[3] for one in found][3:],
            [
                "star(kenb(5),87,3100)",
                "star(kenb(5),87,3100)",
                "nh(2) on kenb(5)",
                "star(nh(2),301,3100) on kenb(5) mixed cell",
                "star(nh(2),301,1575) on kenb(5)",
            ],
        )

    def test_a_key_that_nothing_gives(self) -> None:
        derivations, found = explained("12" * 32, LOG_KASME, [(10, 100)])
        self.assertEqual(told(derivations, found[0]), "line 1: " + "12" * 32 + " none")

    def test_deep_and_far_keys(self) -> None:
        calls, kasme = StandIn(), bytes.fromhex(LOG_KASME)
        key = calls.kenb(kasme, 299)
        sync = key
        for _ in range(16):
            sync = calls.nh(kasme, sync)
        far = calls.kenb_star(sync, 10, 100)
        half = calls.algorithm_key(calls.kenb_star(calls.kenb(kasme, 17), 10, 100), 4, 2)[16:]
        three = key
        for pci in (10, 11, 10):
            three = calls.kenb_star(three, pci, 100)
        text = "\n".join(one.hex() for one in (far, half, key, three))
        _, found = explained(text, LOG_KASME, [(10, 100), (11, 100)])
        self.assertEqual(
            [one.key.form if one.key else "none" for one in found],
            [
                "star(nh(16),10,100)",
                "alg(star(kenb(17),10,100),4,2)",
                "kenb(299)",
                "star(star(star(kenb(299),10,100),11,100),10,100)",
            ],
        )

    def test_the_far_search_follows_where_a_key_fits_or_where_it_is_asked_for(self) -> None:
        calls, kasme = StandIn(), bytes.fromhex(LOG_KASME)
        kenb = calls.kenb(kasme, 3)
        star = calls.kenb_star(kenb, 10, 100)
        deep, half, mistaken, other = (
            calls.algorithm_key(star, 4, 2)[16:],
            calls.algorithm_key(kenb, 5, 2)[16:],
            {str(why): made for why, made in reasons.kenb_mistakes(kasme, 3)}["COUNT is little-endian"],
            bytes(range(32)),
        )
        for keys, fits, forms in (
            ((other,), False, [None]),
            ((deep,), False, [None]),
            ((deep, other), False, [None, None]),
            ((half, deep), True, ["alg(kenb(3),5,2)", "alg(star(kenb(3),10,100),4,2)"]),
            ((kenb, other), True, ["kenb(3)", None]),
            ((mistaken, deep), True, [None, "alg(star(kenb(3),10,100),4,2)"]),
        ):
            text = blocks("\n\n".join(key.hex() for key in keys).splitlines())
            for is_far in (False, True):
                explanation = Explanation(
                    Derivations(calls, [Kasme("KASME 1", kasme)]), Cells([Site(0, 10, 100)]), 8, 2
                )
                found = [one.key.form if one.key else None for one in explanation.find(text, is_far)]
                self.assertEqual(explanation.fits, fits or is_far)
                self.assertEqual(
                    found,
                    forms
                    if fits
                    else ["alg(star(kenb(3),10,100),4,2)" if is_far and key == deep else None for key in keys],
                )

    def test_each_mistake_is_named_with_the_key_that_was_wanted(self) -> None:
        """Each entry of the catalogue, made of KeNB 5, its NH 2, a cell and an algorithm: its line, where no right
        derivation gives those octets."""
        calls, kasme, cell = StandIn(), bytes.fromhex(LOG_KASME), (301, 70000)
        kenb = calls.kenb(kasme, 5)
        first = calls.nh(kasme, kenb)
        second = calls.nh(kasme, first)
        entries = [
            (kenb, "kenb(5)", reasons.kenb_mistakes(kasme, 5)),
            (second, "nh(2) on kenb(5)", reasons.nh_mistakes(kasme, first)),
        ]
        entries += [
            (calls.kenb_star(second, *cell), "star(nh(2),301,70000) on kenb(5)", reasons.star_mistakes(second, *cell))
        ]
        entries += [
            (calls.algorithm_key(kenb, 4, 2), "alg(kenb(5),4,2)", reasons.algorithm_mistakes(kenb, 4, 2, size))
            for size in (32, 16)
        ]
        made = [
            (wanted, form, *one)
            for wanted, form, mistakes in entries
            for one in mistakes
            if one[0].cause not in OTHER_COUNTS
        ]
        derivations = Derivations(calls, [Kasme("KASME 1", kasme)])
        text = "\n\n".join([kenb.hex(), *(value.hex() for *_, value in made)])
        lines = {
            one.value: (one, told(derivations, one))
            for one in Explanation(derivations, Cells([Site(1, *cell)]), 8, 2).find(blocks(text.splitlines()))
        }
        named = 0
        for wanted, form, why, value in made:
            (found, line), name = lines[value], str(why)
            if found.key is not None:  # KASME, another algorithm key: a right derivation
                continue
            named += 1
            is_of_any = (
                "the key that it is made of" in name or name == "the identity is left out"
            )  # then the first algorithm is named
            end = (
                f" none ({name})"
                if why.cause in OF_ANY
                else f" none ({name}; wanted {wanted[-len(value):].hex()}, which is {form})"
            )
            self.assertTrue(line.endswith(end) or is_of_any and " none (" in line, f"{name}: {line}")
        self.assertGreater(named, 45)

    def test_logs_as_products_write_them(self) -> None:
        value, other = bytes(range(0x53, 0x73)), bytes(range(0xA0, 0xC0))
        rows = [value[place : place + 16] for place in (0, 16)]

        def fours(row: bytes, by: int) -> str:
            return " ".join(row[place : place + by].hex() for place in range(0, len(row), by))

        whole = {
            "64 digits": f"KeNB={value.hex().upper()} end",
            "blanks": value.hex(" "),
            "colons": "KeNB: " + value.hex(":"),
            "hyphens": value.hex("-"),
            "a list": ", ".join(f"0x{octet:02x}" for octet in value),
            "a list of C": "{" + ",".join(f"0x{octet:02X}" for octet in value) + "};",
            "dump": f"KeNB:\n  0000: {rows[0].hex(' ')}  |....|\n  0010: {rows[1].hex(' ')}  |....|",
            "groups of four": f"0000: {fours(rows[0], 4)}  STUVWXYZ\n0010: {fours(rows[1], 4)}  face be.",
            "xxd": f"00000000: {fours(rows[0], 2)}  STUVWXYZ[\\]^_`ab\n00000010: {fours(rows[1], 2)}  cdefghijklmnopqr",
            "hexdump -C": "".join(
                f"{place:08x}  {row[:8].hex(' ')}  {row[8:].hex(' ')}  |face ad be beef.|\n"
                for place, row in zip((0, 16), rows)
            )
            + "00000020",
            "8 octets a line": "\n".join(value[place : place + 8].hex(" ") for place in range(0, 32, 8)),
            "8 octets with offsets": "\n".join(
                f"{place:04x} {value[place:place + 8].hex(' ')}" for place in range(0, 32, 8)
            ),
            "0x": f"kenb=0x{value.hex()}",
            "a name before 0x": f"kenb0x{value.hex()}",
            "h behind": f"K_eNB: {value.hex().upper()}H",
            "escapes": "".join(f"\\x{octet:02x}" for octet in value),
            "a hyphen in the middle": "\n".join(
                f"{16 * at:04x}  {row[:8].hex(' ')} - {row[8:].hex(' ')}" for at, row in enumerate(rows)
            ),
            "0x before offsets": "\n".join(f"0x{16 * at:04x}:  {row.hex(' ', 2)}  ...." for at, row in enumerate(rows)),
            "a word before": f"face {value.hex(' ')}",
            "two digits before": f"be {value.hex(' ')}",
            "a time before": f"10:36:15.410 [ad] key {value.hex(' ')}",
        }
        for name, text in whole.items():
            with self.subTest(name):
                self.assertEqual([candidates(block) for block in blocks(text.splitlines())], [[value]], text)
        both = (
            f"{value.hex()} {other.hex()}",
            value.hex(" ") + "\n" + other.hex(" "),
            "\n".join(f"{place % 32:04x}: {(value + other)[place:place + 16].hex(' ')}" for place in range(0, 64, 16)),
        )
        for text in both:
            with self.subTest("two keys", text=text):
                self.assertEqual(
                    [one for block in blocks(text.splitlines()) for one in candidates(block)], [value, other]
                )
        halves = f"KRRCenc: {value[:16].hex(' ')}\nKRRCint: {other[:16].hex(' ')}\n\n{value.hex()}00 {value[:16].hex()}"
        self.assertEqual(
            [one for block in blocks(halves.splitlines()) for one in candidates(block)],
            [value[:16], other[:16], value[:16]],
        )

    def test_rows_without_offsets_are_keys_or_halves(self) -> None:
        calls, kasme = StandIn(), bytes.fromhex(LOG_KASME)
        kenb = calls.kenb(kasme, 3)
        halves = [calls.algorithm_key(kenb, type, 2)[16:] for type in (3, 4, 5)]
        rows = [halves[0], kenb[:16], kenb[16:], halves[1], halves[2]]
        _, found = explained("\n".join(row.hex(" ") for row in rows), LOG_KASME, [(10, 100)])
        self.assertEqual(
            [(one.line, one.key.form if one.key else "none") for one in found],
            [(1, "alg(kenb(3),3,2)"), (2, "kenb(3)"), (4, "alg(kenb(3),4,2)"), (5, "alg(kenb(3),5,2)")],
        )
        _, found = explained(bytes(32).hex(" ", 16).replace(" ", "\n"), LOG_KASME, [(10, 100)])
        self.assertEqual([one.key for one in found], [None])


if __name__ == "__main__":
    unittest.main()

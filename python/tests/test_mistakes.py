"""Mistakes of a driven actor by their names: each entry of the catalogue of keys, made in the place of a key of the
ordinary run."""
from __future__ import annotations

import dataclasses
import unittest
from pathlib import Path
from unittest import mock

from lte_sec.common import causes
from lte_sec.drive import frames, reply_mistakes as mistakes
from lte_sec.common import mistakes as reasons
from lte_sec.runs.ladders import kind_of
from lte_sec.runs.run_report import LadderRow, rows_of

from .standin import StandIn

REPORT = (Path(__file__).resolve().parents[2] / "examples/run/ordinary.out").read_text().splitlines()
ROWS = {row.number: row for row in rows_of(REPORT).values()}


def octets(row: LadderRow) -> bytes:
    return bytes.fromhex(row.key)


def of_key(rows: dict[int, LadderRow], row: LadderRow, value: bytes) -> str:
    """The mistake by which a key has these octets, in words."""
    return causes.told(mistakes.of_key(rows, row, value))


def first(word: str) -> LadderRow:
    return next(row for row in ROWS.values() if row.word == word)


class Mistakes(unittest.TestCase):
    def test_each_entry_is_named(self) -> None:
        star, nh, kenb, alg = (first(word) for word in ("star", "nh", "kenb", "alg"))
        above = {row.number: octets(ROWS[row.parent or 0]) for row in (star, nh, kenb, alg)}
        made = [
            (star, reasons.star_mistakes(above[star.number], star.values[1], star.values[2])),
            (nh, reasons.nh_mistakes(above[nh.number], octets(ROWS[nh.values[1]]))),
            (kenb, reasons.kenb_mistakes(above[kenb.number], kenb.values[1])),
            (alg, reasons.algorithm_mistakes(above[alg.number], alg.values[1], alg.values[2])),
        ]
        count = 0
        for row, entries in made:
            for name, value in entries:
                count += 1
                self.assertEqual(of_key(ROWS, row, value), str(name), row.word)
            self.assertEqual(of_key(ROWS, row, b"\x12" * 32), "", row.word)
        self.assertGreater(count, 50)

    def test_another_key_or_cell_of_the_run_is_named(self) -> None:
        star = first("star")
        above = ROWS[star.parent or 0]
        self.assertEqual(
            of_key(ROWS, star, mistakes.derived("star", octets(above), 10, 101)), "it is for PCI 10, EARFCN-DL 101"
        )
        nh = first("nh")
        self.assertEqual(
            of_key(ROWS, star, mistakes.derived("star", octets(nh), 11, 101)),
            f"it is made of NH, row {nh.number}, not of row {above.number}",
        )
        alg = next(row for row in ROWS.values() if row.word == "alg" and row.parent == star.number)
        self.assertEqual(
            of_key(ROWS, alg, mistakes.derived("alg", octets(above), alg.values[1], alg.values[2])),
            f"it is made of {kind_of(above)}, row {above.number}, not of row {star.number}",
        )

    def test_the_first_key_of_a_reply_is_named(self) -> None:
        star = first("star")
        algs = [octets(row) for row in ROWS.values() if row.word == "alg" and row.parent == star.number][:3]
        note = frames.Note(0, frames.WAYS.index("horizontal"), octets(star))
        wanted = frames.Reply(derived=(octets(star), *algs), note=note)
        got = frames.Reply(derived=(octets(star)[::-1], *(bytes(32) for _ in algs)), note=note)
        with mock.patch.object(mistakes, "rows_by_run", lambda *_: ROWS):
            for reply, told in (
                (got.spelled(), ["KeNB*: the octets are reversed"]),
                (wanted.spelled(), []),
                (b"\0\1\0", []),
            ):
                self.assertEqual(
                    told, [*map(str, mistakes.of_reply("a program", b"", 14, wanted.spelled(), reply, "phone"))]
                )

    def test_a_message_is_judged_only_where_it_differs_and_the_keys_do_not(self) -> None:
        one, other = frames.Reply(to=b"\2", record=b"\x47abcd\0\2"), frames.Reply(to=b"\2", record=b"\x47abce\0\2")
        key, wrong = (dataclasses.replace(other, derived=(octets,)) for octets in (bytes(32), bytes([1]) * 32))
        with mock.patch.object(mistakes, "rows_by_run", lambda *_: ROWS), mock.patch.object(
            mistakes, "proved_calls", StandIn
        ), mock.patch("lte_sec.drive.seal_mistakes.mistakes", lambda *_: ["named"]), mock.patch(
            "lte_sec.runs.scenarios.read", lambda _: None
        ):
            for want, have, told in (
                (one, other, ["named"]),
                (one, one, []),
                (dataclasses.replace(one, derived=(bytes(32),)), wrong, []),
                (dataclasses.replace(one, derived=(bytes(32),)), key, ["named"]),
            ):
                self.assertEqual(told, mistakes.of_reply("a program", b"", 3, want.spelled(), have.spelled(), "phone"))
            self.assertEqual(
                [], mistakes.of_reply("a program", b"", None, one.spelled(), other.spelled(), "phone")
            )  # the setup


if __name__ == "__main__":
    unittest.main()

"""Where keys part by one fault: what the program of what-if tells of scenarios that were worked out by hand."""
from __future__ import annotations

import subprocess
import unittest
from pathlib import Path

TOP = Path(__file__).resolve().parents[2]
PROGRAM = VARIANTS = ""

HEAD = """phone = { caps = "a020" }
station = [{ id = 0, cells = [[10, 100]] }, { id = 1, cells = [[11, 101]] }]
step = [
"""
KASME = "000102030405060708090a0b0c0d0e0f101112131415161718191a1b1c1d1e1f"
COMES = '{ do = "deliver", record = -1 }'
CELLS = ("[10, 100]", "[11, 101]")
BEGUN = [
    f'{{ do = "auth", ksi = 0, kasme = "{KASME}" }}',
    '{ do = "smc" }',
    COMES,
    COMES,
    '{ do = "connect", cell = [10, 100] }',
    COMES,
    COMES,
    COMES,
]


def x2(station: int) -> str:
    return f'{{ do = "x2", station = {station}, cell = {CELLS[1 - station]} }}'


def ordered(station: int) -> list[str]:
    """A handover over X2 from a station, to where the phone obeys."""
    return [x2(station), COMES, COMES, f'{{ do = "command", station = {station} }}', COMES, COMES]


def handovers(first: int, last: int) -> list[str]:
    """Handovers over X2 there and back, by their numbers from 0: the core has each path switch, and its answer does not
    arrive."""
    return [step for number in range(first, last) for step in (*ordered(number % 2), COMES)]


def asked(times: int) -> list[str]:
    """A handover to station 1, which asks so often again without an answer that arrives. Then one within the station,
    whose preparation is cancelled before the newest answer comes, and one more."""
    within = '{ do = "intra", station = 1, cell = [11, 101] }'
    return [
        *BEGUN,
        *handovers(0, 1),
        *['{ do = "ask", station = 1 }', COMES] * times,
        within,
        '{ do = "cancel", station = 1 }',
        COMES,
        within,
        '{ do = "command", station = 1 }',
        COMES,
        COMES,
    ]


def cancelled(station: int, record: int) -> list[str]:
    """A preparation that is cancelled before an answer of a path switch arrives."""
    return [
        x2(station),
        COMES,
        f'{{ do = "cancel", station = {station} }}',
        COMES,
        f'{{ do = "deliver", record = {record} }}',
    ]


# Of each scenario its steps, how many steps the core's chain makes in it, where its own keys differ, and the variants
# of one message lost or sent again in which they do.
SHOWN: dict[str, tuple[list[str], int, list[int], list[str]]] = {
    "six steps, and seven where the answer comes again": (asked(5), 6, [], []),
    "seven, and eight where it comes again": (asked(6), 7, [], ["again 29"]),
    "eight": (asked(7), 8, [34], ["lost 34"]),
    "ten": (asked(9), 10, [38], ["lost 38"]),
    "eight path switches without an answer": (
        [*BEGUN, *handovers(0, 8), COMES, COMES, *ordered(0)],
        8,
        [70],
        ["lost 63", "lost 64", "lost 67", "lost 68", "lost 70"],
    ),
    "nine without an answer, then one": (
        [*BEGUN, *handovers(0, 10), COMES, COMES, *ordered(0)],
        10,
        [84],
        ["lost 68", "lost 77", "lost 78", "lost 81", "lost 82", "lost 84"],
    ),
    "one answer that is lost, behind a preparation that was cancelled": (
        [*BEGUN, *handovers(0, 1), COMES, *handovers(1, 8), *cancelled(0, -4), *ordered(0), COMES],
        9,
        [],
        ["lost 15", "again 69"],
    ),
    "eight steps ahead, where the key that is taken was told before": (
        [
            *BEGUN,
            *handovers(0, 7),
            x2(1),
            '{ do = "cancel", station = 1 }',
            '{ do = "deliver", record = 46 }',
            COMES,
            *ordered(1),
        ],
        7,
        [],
        ["again 59"],
    ),
}


def program(name: str) -> str:
    told = subprocess.run([TOP / "lte_sec", "--program", name], capture_output=True, text=True)
    if told.returncode:
        raise unittest.SkipTest(f"the program {name} is not built: {told.stderr.strip()}")
    return told.stdout.split()[1]


def setUpModule() -> None:
    global PROGRAM, VARIANTS
    PROGRAM, VARIANTS = program("lte_sec_app"), program("lte_variants")


def told(words: list[str], text: str) -> list[str]:
    return subprocess.run(words, input=text, capture_output=True, text=True, check=True).stdout.split("\n")


class KeysThatDiffer(unittest.TestCase):
    def test_keys_part_eight_steps_ahead_and_nowhere_else(self) -> None:
        for name, (steps, chained, own, variants) in SHOWN.items():
            with self.subTest(name):
                text = HEAD + "".join(f"  {step},\n" for step in steps) + "]\n"
                self.assertEqual(sum(" way=chained " in line for line in told([PROGRAM, "run"], text)), chained)
                lines = told([VARIANTS, "one", "lost", "again"], text)
                self.assertEqual(
                    [line for line in lines if line.startswith("keys differ")], [f"keys differ {step}" for step in own]
                )
                self.assertEqual(
                    [
                        fault
                        for fault, _, outcomes in map(lambda line: line.partition(": "), lines)
                        if "keys differ" in outcomes
                    ],
                    variants,
                )


if __name__ == "__main__":
    unittest.main()

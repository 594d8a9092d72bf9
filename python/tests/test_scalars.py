"""Values of TOML that are no tables: each token as the language has it, and as Python's own reader takes it where there
is one."""
from __future__ import annotations

import datetime
import importlib
import math
import sys
import unittest

from lte_sec.runs import scalars

RIGHT: dict[str, scalars.Scalar] = {
    "1": 1,
    "+1": 1,
    "-0": 0,
    "1_000": 1000,
    "0x1F": 31,
    "0o17": 15,
    "0b101": 5,
    "1.0": 1.0,
    "1e5": 1e5,
    "1e05": 1e5,
    "1_0.0_1e1_0": 10.01e10,
    "inf": math.inf,
    "-inf": -math.inf,
    "true": True,
    "false": False,
    "2020-01-01": datetime.date(2020, 1, 1),
    "00:00:00.5": datetime.time(0, 0, 0, 500_000),
    "2020-01-01T00:00:00": datetime.datetime(2020, 1, 1),
    "2020-01-01 00:00:00.1234567+01:30": datetime.datetime(
        2020, 1, 1, 0, 0, 0, 123_456, datetime.timezone(datetime.timedelta(hours=1, minutes=30))
    ),
    "1979-05-27t00:32:00z": datetime.datetime(1979, 5, 27, 0, 32, tzinfo=datetime.timezone.utc),
    '"a"': "a",
    '"\\u00e9"': "é",
    '"\\U0010ffff"': "\U0010ffff",
    '"\\\\"': "\\",
    '""': "",
    "''": "",
    '"a\tb"': "a\tb",
    '"a\\"b"': 'a"b',
    '"\\t\\n\\r\\f\\b"': "\t\n\r\f\b",
    '"""a"""': "a",
    '"""\na"""': "a",
    '"""\n\na\\\n   b"""': "\nab",
    '"""a""""': 'a"',
    '"""a"""""': 'a""',
    '"""x\\\\\n y"""': "x\\\n y",
    '"""\r\nx\r\ny"""': "x\ny",
    "'''a'''": "a",
    "'''\na\\b'''": "a\\b",
    "'a\\b'": "a\\b",
}
ONLY_HERE: dict[str, scalars.Scalar] = {'"\\e"': "\x1b", '"\\x41"': "A", "07:32": datetime.time(7, 32)}  # of TOML 1.1
WRONG = (
    "00",
    "1__0",
    "_1",
    "1_",
    "0xg",
    "-0x1",
    "1.",
    ".5",
    "True",
    "2020-13-01",
    "25:00:00",
    "2020-01-01T00:00:00+24:00",
    "1e",
    "+",
    "-",
    "",
    "1e+",
    "1.e1",
    "00.1",
    "1_.0",
    "1._0",
    "2020-01-01T",
    "infx",
    "\u0663",
    "1\u0663",
    '"\\ud800"',
    '"\\U00110000"',
    '"\\q"',
    '"a\x01b"',
    "'a\x7f'",
    '"\\\n"',
    '"""a\\ b"""',
)


class Scalars(unittest.TestCase):
    def test_each_token_has_its_value(self) -> None:
        for token, value in {**RIGHT, **ONLY_HERE}.items():
            self.assertEqual((type(value), value), (type(scalars.read(token)), scalars.read(token)), token)
        self.assertTrue(math.isnan(float(str(scalars.read("nan")))))

    def test_what_is_no_value_is_refused(self) -> None:
        for token in WRONG:
            with self.assertRaises(ValueError, msg=token):
                scalars.read(token)

    @unittest.skipIf(sys.version_info < (3, 11), "it needs tomllib")
    def test_python_takes_them_alike(self) -> None:
        tomllib = importlib.import_module("tomllib")
        for token, value in RIGHT.items():
            self.assertEqual(value, tomllib.loads(f"x = {token}")["x"], token)
        for token in WRONG:
            with self.assertRaises(ValueError, msg=token):
                tomllib.loads(f"x = {token}")


if __name__ == "__main__":
    unittest.main()

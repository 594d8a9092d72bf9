"""Files of Wycheproof: their members, and their values by Python's own HMAC and by the ciphers of the tests."""
from __future__ import annotations

import hmac
import unittest
from typing import Any
from unittest import mock

from lte_sec.runs import wycheproof
from lte_sec.common.options import WrongWords

from .standin import StandIn

WAYS = ("uplink", "downlink")
# The members of a file and of a test, as the project's schemas of version 1 have them.
FILE = {"algorithm", "schema", "generatorVersion", "numberOfTests", "header", "notes", "testGroups"}
TESTS = {
    "MacTest": {"key", "msg", "tag"},
    "IndCpaTest": {"key", "iv", "msg", "ct"},
    "MacWithIvTest": {"key", "iv", "msg", "tag"},
}
BUGS = {"AUTH_BYPASS", "BASIC", "CONFIDENTIALITY", "FUNCTIONALITY", "UNKNOWN"}


def answers(lines: list[str]) -> list[str]:
    """What calc answers, by the calls of the tests."""
    calls, told = StandIn(), []
    for line in lines:
        word, *fields = line.split(" ")
        if word in ("eea1", "eea2", "eea3", "eia1", "eia2", "eia3"):
            key, count, bearer, direction, text = fields
            told.append(
                getattr(calls, word)(
                    bytes.fromhex(key),
                    int(count),
                    int(bearer),
                    WAYS.index(direction),
                    bytes.fromhex(text.replace("-", "")),
                ).hex()
                or "-"
            )
        elif word == "kasme":
            plmn, sqn = bytes.fromhex(fields[2]), bytes.fromhex(fields[3])
            told.append(
                hmac.digest(
                    bytes.fromhex(fields[0] + fields[1]), b"\x10" + plmn + b"\0\3" + sqn + b"\0\6", "sha256"
                ).hex()
            )
        else:
            parent = bytes.fromhex(fields[0])
            if word == "nh":
                told.append(calls.nh(parent, bytes.fromhex(fields[1])).hex())
            elif word == "kenb":
                told.append(calls.kenb(parent, int(fields[1])).hex())
            else:
                derived = calls.kenb_star if word == "star" else calls.algorithm_key
                told.append(derived(parent, int(fields[1]), int(fields[2])).hex())
    return told


def file_of(kind: str) -> Any:
    with mock.patch.object(wycheproof, "answers", answers):
        return wycheproof.document(kind, 3, 60)


class Files(unittest.TestCase):
    def test_each_kind_has_the_members_of_its_schema(self) -> None:
        for kind in wycheproof.KINDS:
            file = file_of(kind)
            (group,) = file["testGroups"]
            self.assertEqual((FILE, 60, 60), (set(file), file["numberOfTests"], len(group["tests"])))
            for test in group["tests"]:
                self.assertEqual(TESTS[group["type"]] | {"tcId", "comment", "flags", "result"}, set(test), kind)
                self.assertEqual(group["keySize"], 4 * len(test["key"]))
                self.assertEqual(group.get("ivSize", 0), 4 * len(test.get("iv", "")))
                self.assertEqual(group.get("tagSize", 0), 4 * len(test.get("tag", "")))
                self.assertEqual("invalid" if test["flags"] else "valid", test["result"])
                self.assertLessEqual(set(test["flags"]), set(file["notes"]))
            self.assertTrue(all(note["bugType"] in BUGS and note["description"] for note in file["notes"].values()))

    def test_a_derivation_is_the_mac_of_its_text(self) -> None:
        for test in file_of("derivations")["testGroups"][0]["tests"]:
            right = hmac.digest(bytes.fromhex(test["key"]), bytes.fromhex(test["msg"]), "sha256").hex()
            self.assertEqual(test["result"] == "valid", right == test["tag"], test["comment"])

    def test_an_iv_is_count_bearer_and_direction(self) -> None:
        self.assertEqual("00000005f4000000", wycheproof.iv({"count": "5", "bearer": "30", "direction": "downlink"}))

    def test_another_kind_is_told(self) -> None:
        with self.assertRaisesRegex(WrongWords, "--wycheproof is one of derivations, eea1"):
            wycheproof.document("eea4", 1, 1)


if __name__ == "__main__":
    unittest.main()

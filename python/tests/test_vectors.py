"""The test vectors against the calls in pure Python: each output is equal, each invalid test is refused for the reason
of its flag."""
from __future__ import annotations

import contextlib
import io
import json
import unittest
from typing import Any

from lte_sec.runs import vectors
from lte_sec.traces import trace_words as words
from lte_sec.common.terms import TraceError
from tests import ciphers
from tests.standin import StandIn, kdf

PURE = StandIn()
ENCIPHER = {"1": ciphers.eea1, "2": PURE.eea2, "3": ciphers.eea3}
MAC = {"1": ciphers.eia1, "2": PURE.eia2, "3": ciphers.eia3}
HEADERS = {7: 1, 12: 2, 15: 2, 18: 3}
Test = dict[str, dict[str, Any]]


def key_of(key: str, kind: int, identity: int) -> bytes:
    """The key of an algorithm: the last 16 octets (TS 33.401 A.7)."""
    return PURE.algorithm_key(bytes.fromhex(key), kind, identity)[16:]


def ciphered(key: str, kind: int, given: dict[str, Any], count: int, bearer: int, text: bytes) -> bytes:
    eea = given["eea"].partition("/")[0]
    return ENCIPHER[eea](key_of(key, kind, int(eea)), count, bearer, way(given), text) if eea != "0" else text


def mac(key: str, kind: int, given: dict[str, Any], count: int, bearer: int, text: bytes) -> bytes:
    eia = given["eea"].partition("/")[2]
    return MAC[eia](key_of(key, kind, int(eia)), count, bearer, way(given), text)


def way(given: dict[str, Any]) -> int:
    return int(given["direction"] == "downlink")


def count_of(given: dict[str, Any], sequence: int, bits: int, most: int) -> int | None:
    """The least COUNT from the given one on that has this sequence number."""
    count = given["count"] + (sequence - given["count"]) % 2**bits
    return count if count <= most else None


def nas(given: dict[str, Any]) -> dict[str, Any]:
    pdu = bytes.fromhex(given["pdu"])
    if len(pdu) < 6:
        return {"refused": "short"}
    count = count_of(given, pdu[5], 8, 2**24 - 1)
    if count is None:
        return {"refused": "count spent"}
    if mac(given["kasme"], 2, given, count, 0, pdu[5:]) != pdu[1:5]:
        return {"refused": "mac fails"}
    kind = pdu[0] >> 4
    text = ciphered(given["kasme"], 1, given, count, 0, pdu[6:]) if kind in (2, 4) else pdu[6:]
    return {"type": kind, "count": count, "text": text.hex()}


def srb(given: dict[str, Any]) -> dict[str, Any]:
    pdu = bytes.fromhex(given["pdu"])
    if len(pdu) < 5:
        return {"refused": "short"}
    count = count_of(given, pdu[0], 5, 2**32 - 1)
    if count is None:
        return {"refused": "count spent"}
    plain = ciphered(given["key"], 3, given, count, given["bearer"], pdu[1:])
    if mac(given["key"], 4, given, count, given["bearer"], pdu[:1] + plain[:-4]) != plain[-4:]:
        return {"refused": "mac fails"}
    return {"count": count, "text": plain[:-4].hex()}


def drb(given: dict[str, Any]) -> dict[str, Any]:
    pdu, header = bytes.fromhex(given["pdu"]), HEADERS[given["bits"]]
    if len(pdu) < header:
        return {"refused": "short"}
    count = count_of(given, int.from_bytes(pdu[:header], "big") % 2 ** given["bits"], given["bits"], 2**32 - 1)
    if count is None:
        return {"refused": "count spent"}
    return {"count": count, "text": ciphered(given["key"], 5, given, count, given["bearer"], pdu[header:]).hex()}


def reach(given: dict[str, Any]) -> dict[str, Any]:
    key, kasme, sync = (bytes.fromhex(given[name]) for name in ("key", "kasme", "sync"))
    steps = (given["ncc"] - given["ncc-in-use"]) % 8
    for _ in range(steps):
        sync = PURE.nh(kasme, sync)
    star = PURE.kenb_star(sync if steps else key, given["pci"], given["earfcn"])
    return {"way": "vertical" if steps else "horizontal", "steps": steps, "nh": sync.hex(), "kenb-star": star.hex()}


def kasme(given: dict[str, Any]) -> bytes:
    """KASME (TS 33.401 A.2)."""
    return kdf(
        bytes.fromhex(given["ck"] + given["ik"]), 0x10, bytes.fromhex(given["plmn"]), bytes.fromhex(given["sqn-xor-ak"])
    )


def text(given: dict[str, Any]) -> tuple[Any, ...]:
    return bytes.fromhex(given["key"]), given["count"], given["bearer"], way(given), bytes.fromhex(given["text"])


COMPUTED = {
    "kenb": lambda given: {"kenb": PURE.kenb(bytes.fromhex(given["kasme"]), given["count"]).hex()},
    "nh": lambda given: {"nh": PURE.nh(bytes.fromhex(given["kasme"]), bytes.fromhex(given["sync"])).hex()},
    "star": lambda given: {
        "kenb-star": PURE.kenb_star(bytes.fromhex(given["key"]), given["pci"], given["earfcn"]).hex()
    },
    "alg": lambda given: {
        "algorithm-key": PURE.algorithm_key(bytes.fromhex(given["key"]), given["type"], given["id"]).hex()
    },
    "eea1": lambda given: {"ciphertext": ciphers.eea1(*text(given)).hex()},
    "eea2": lambda given: {"ciphertext": PURE.eea2(*text(given)).hex()},
    "eea3": lambda given: {"ciphertext": ciphers.eea3(*text(given)).hex()},
    "eia1": lambda given: {"mac": ciphers.eia1(*text(given)).hex()},
    "eia2": lambda given: {"mac": PURE.eia2(*text(given)).hex()},
    "eia3": lambda given: {"mac": ciphers.eia3(*text(given)).hex()},
    "kasme": lambda given: {"kasme": kasme(given).hex()},
    "nas": nas,
    "srb": srb,
    "drb": drb,
    "reach": reach,
}


class Vectors(unittest.TestCase):
    def test_a_thousand_are_those_of_an_independent_program(self) -> None:
        groups = vectors.document(7, 1000)["testGroups"]
        assert isinstance(groups, list)
        numbers, flags = [], set()
        for group in groups:
            for test in group["tests"]:
                numbers.append(test["tcId"])
                flags |= set(test["flags"])
                self.assertEqual(test["result"] == "invalid", test["flags"] != [])
                self.assertEqual(COMPUTED[group["line"]](test["in"]), test["out"], (group["line"], test))
        self.assertEqual((list(range(1, 1001)), set(vectors.FLAGS)), (numbers, flags))

    def test_a_seed_gives_one_document(self) -> None:
        self.assertEqual(vectors.document(3, 60), vectors.document(3, 60))
        self.assertNotEqual(vectors.document(3, 60), vectors.document(4, 60))

    def test_the_word_prints_a_document_and_refuses_other_words(self) -> None:
        with contextlib.redirect_stdout(io.StringIO()) as said:
            self.assertEqual(0, words.vectors(["--seed", "5", "--count", "20"]))
        self.assertEqual(20, json.loads(said.getvalue())["numberOfTests"])
        for given in (["--seed", "x"], ["--seed", str(2**32)], ["--count", "0"], ["file"], ["--fast"]):
            self.assertRaises(TraceError, words.vectors, given)


if __name__ == "__main__":
    unittest.main()

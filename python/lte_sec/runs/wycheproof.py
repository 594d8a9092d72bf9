"""Test vectors in the form of Wycheproof's own files: for programs that read these: `./lte_sec vectors --wycheproof
KIND`.

A file has tests of one type. The derivations of TS 33.401 Annex A are HMAC-SHA-256 of a text S (MacTest); a cipher has
an IV (IndCpaTest) and a MAC has one too (MacWithIvTest), which is COUNT, BEARER and DIRECTION as 128-EEA2 and 128-EIA2
write them, in eight octets. Every output is an answer of the proved program `calc`. The members are those of
Wycheproof's schemas of version 1, as they are remembered.
"""
from __future__ import annotations

import dataclasses
from collections.abc import Callable

from ..common.options import WrongWords
from ..common.pairs import paired
from .vectors import GROUPS, CalcFields, Draws, answers, line_of

VERSION = "1"
Test = dict[str, object]
NOTES = {
    "ModifiedTag": {
        "bugType": "AUTH_BYPASS",
        "description": "One bit of the tag is turned. A receiver that takes it does not compare the whole tag.",
    }
}
SPOILT = 5  # each so many tests of a MAC one is spoilt


def of_number(text: str, octets: int) -> bytes:
    return int(text).to_bytes(octets, "big")


def derivation(code: int, *parameters: bytes) -> bytes:
    """S of a derivation: its code, and each parameter with its length in two octets (TS 33.220 B.2)."""
    return bytes([code]) + b"".join(one + len(one).to_bytes(2, "big") for one in parameters)


def key_and_text(word: str, fields: CalcFields) -> tuple[bytes, bytes]:
    """The key and S of a derivation (TS 33.401 A.2 to A.7)."""
    key = bytes.fromhex(
        fields["ck"] + fields["ik"] if word == "kasme" else fields["key"] if "key" in fields else fields["kasme"]
    )
    if word == "kasme":
        return key, derivation(0x10, bytes.fromhex(fields["plmn"]), bytes.fromhex(fields["sqn-xor-ak"]))
    if word == "kenb":
        return key, derivation(0x11, of_number(fields["count"], 4))
    if word == "nh":
        return key, derivation(0x12, bytes.fromhex(fields["sync"]))
    if word == "star":
        return key, derivation(
            0x13, of_number(fields["pci"], 2), of_number(fields["earfcn"], 2 if int(fields["earfcn"]) < 1 << 16 else 3)
        )
    return key, derivation(0x15, of_number(fields["type"], 1), of_number(fields["id"], 1))


def iv(fields: CalcFields) -> str:
    """COUNT, BEARER and DIRECTION, as 128-EEA2 and 128-EIA2 begin with them (TS 33.401 B.1.3, B.2.3)."""
    return (
        of_number(fields["count"], 4)
        + bytes([int(fields["bearer"]) << 3 | (fields["direction"] == "downlink") << 2, 0, 0, 0])
    ).hex()


def of_derivation(word: str, fields: CalcFields, answer: str) -> Test:
    key, text = key_and_text(word, fields)
    return {"key": key.hex(), "msg": text.hex(), "tag": answer}


def of_cipher(word: str, fields: CalcFields, answer: str) -> Test:
    return {"key": fields["key"], "iv": iv(fields), "msg": fields["text"], "ct": "" if answer == "-" else answer}


def of_mac(word: str, fields: CalcFields, answer: str) -> Test:
    return {"key": fields["key"], "iv": iv(fields), "msg": fields["text"], "tag": answer}


@dataclasses.dataclass(frozen=True)
class Kind:
    """A kind of file: its algorithm and schema, the type and sizes of its group in bits, the lines of calc that its
    tests are, and how."""

    algorithm: str
    schema: str
    group: dict[str, object]
    words: tuple[str, ...]
    test: Callable[[str, CalcFields, str], Test]


CIPHERS, MACS = ("SNOW3G", "AES-CTR", "ZUC"), ("SNOW3G", "AES-CMAC", "ZUC")
KINDS = {
    "derivations": Kind(
        "HMACSHA256",
        "mac_test_schema_v1.json",
        {"type": "MacTest", "keySize": 256, "tagSize": 256},
        ("kasme", "kenb", "nh", "star", "alg"),
        of_derivation,
    ),
    **{
        f"eea{place}": Kind(
            f"128-EEA{place} {name}",
            "ind_cpa_test_schema_v1.json",
            {"type": "IndCpaTest", "keySize": 128, "ivSize": 64},
            (f"eea{place}",),
            of_cipher,
        )
        for place, name in enumerate(CIPHERS, 1)
    },
    **{
        f"eia{place}": Kind(
            f"128-EIA{place} {name}",
            "mac_with_iv_test_schema_v1.json",
            {"type": "MacWithIvTest", "keySize": 128, "ivSize": 64, "tagSize": 32},
            (f"eia{place}",),
            of_mac,
        )
        for place, name in enumerate(MACS, 1)
    },
}


def document(name: str, seed: int, count: int) -> dict[str, object]:
    """A file of a kind. Of MACs some tests are spoilt, which are to be refused."""
    if name not in KINDS:
        raise WrongWords(f"--wycheproof is one of {', '.join(KINDS)}, and not '{name}'")
    kind, draws = KINDS[name], Draws(seed)
    sources = [GROUPS[word].cases(draws) for word in kind.words]
    cases = [next(sources[place % len(sources)]) for place in range(count)]
    told = answers([line_of(case.word, case.fields) for case in cases])
    tests: list[Test] = []
    for number, (case, answer) in enumerate(paired(cases, told), 1):
        test = kind.test(case.word, case.fields, answer)
        is_spoilt = "tag" in test and number % SPOILT == 0
        if is_spoilt:
            test["tag"] = draws.bit(bytes.fromhex(answer), ()).hex()
        head: Test = {"tcId": number, "comment": case.comment, "flags": ["ModifiedTag"] if is_spoilt else []}
        tests.append(head | test | {"result": "invalid" if is_spoilt else "valid"})
    notes = {flag: note for flag, note in NOTES.items() if any(flag in str(test["flags"]) for test in tests)}
    return {
        "algorithm": kind.algorithm,
        "schema": kind.schema,
        "generatorVersion": VERSION,
        "numberOfTests": count,
        "header": [
            (
                f"Made by ./lte_sec vectors --wycheproof {name} --seed {seed}; key derivations and algorithms of LTE "
                "access security (TS 33.401 Annexes A and B)."
            )
        ],
        "notes": notes,
        "testGroups": [kind.group | {"source": {"name": "lte_sec", "version": VERSION}, "tests": tests}],
    }

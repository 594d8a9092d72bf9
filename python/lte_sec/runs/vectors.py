"""Test vectors as a JSON document in the manner of Wycheproof: `./lte_sec vectors [--seed N] [--count N]`.

The inputs are drawn by a seed, near the ends of their ranges; every output is an answer of the proved program `calc`.
The same seed and count give the same document. A test that is `invalid` must be refused, for the reason that its flag
names.
"""
from __future__ import annotations

import dataclasses
import itertools
import random
import subprocess
from collections.abc import Callable, Iterator

from ..common.derive import TOP
from ..common.pairs import paired
from ..common.terms import TraceError

VERSION, MOST, USUAL, SEEDS = 1, 100_000, 1000, 2**32
CalcFields = dict[str, str]

# Why a test is invalid: what was done, and what a receiver must find.
FLAGS = {
    "MacBit": "one bit of the message or of its MAC is turned: the MAC fails",
    "WrongCount": (
        "the receiver's least COUNT is above that of the sender, so that it takes the next one with this "
        "sequence number: the MAC fails"
    ),
    "CountSpent": "no COUNT from the least one on has this sequence number: the COUNTs are spent",
    "Cut": "the message ends before its header and MAC do",
}


@dataclasses.dataclass
class DrawnCase:
    """A test before it is answered: the line of calc and its fields; why it is invalid; how a message is made first,
    and spoilt."""

    word: str
    fields: CalcFields
    comment: str
    flag: str | None = None
    seal: tuple[str, CalcFields] | None = None
    spoil: Callable[[bytes], bytes] = bytes


def line_of(word: str, fields: CalcFields) -> str:
    return " ".join([word, *(value or "-" for value in fields.values())])


def answers(lines: list[str]) -> list[str]:
    """What calc answers, line by line."""
    ran = subprocess.run(
        [str(TOP / "lte_sec"), "calc"], input="".join(f"{line}\n" for line in lines), capture_output=True, text=True
    )
    told = ran.stdout.splitlines()
    if len(told) != len(lines) or ran.returncode not in (0, 3):
        raise TraceError(
            ran.stderr.strip().splitlines()[-1] if ran.stderr.strip() else f"calc ends with status {ran.returncode}"
        )
    return told


class Draws:
    """What a seed gives."""

    def __init__(self, seed: int):
        self.random = random.Random(seed)

    def octets(self, count: int) -> str:
        return self.random.getrandbits(8 * count).to_bytes(count, "big").hex() if count else ""

    def text(self, most: int) -> str:
        return self.octets(self.random.choice([0, 1, 15, 16, 17, self.random.randrange(most + 1)]))

    def number(self, high: int, *edges: int) -> int:
        """A number up to the highest: an end, one of these edges or a neighbour, or any."""
        near = [0, 1, high - 1, high, *(it for edge in edges for it in (edge - 1, edge))]
        return self.random.choice([*(it for it in near if 0 <= it <= high), self.random.randrange(high + 1)])

    def direction(self) -> str:
        return self.random.choice(["uplink", "downlink"])

    def one(self, *of: str) -> str:
        return self.random.choice(of)

    def algorithms(self) -> str:
        """Those of encryption and integrity, as calc takes them; null integrity has no MAC that fails, and is not
        drawn."""
        return f"{self.one('0', '1', '2', '3')}/{self.one('1', '2', '3')}"

    def bit(self, octets: bytes, header: tuple[int, ...]) -> bytes:
        """The octets with one bit turned, of any octet but these."""
        spoilt = bytearray(octets)
        spoilt[
            self.random.choice([place for place in range(len(octets)) if place not in header])
        ] ^= 1 << self.random.randrange(8)
        return bytes(spoilt)


def kasme(draws: Draws) -> Iterator[DrawnCase]:
    while True:
        fields = {
            "ck": draws.octets(16),
            "ik": draws.octets(16),
            "plmn": draws.octets(3),
            "sqn-xor-ak": draws.octets(6),
        }
        yield DrawnCase("kasme", fields, f"KASME in the network with the PLMN identity {fields['plmn']}")


def kenb(draws: Draws) -> Iterator[DrawnCase]:
    while True:
        count = draws.number(2**24 - 1, 256, 2**16)
        yield DrawnCase("kenb", {"kasme": draws.octets(32), "count": str(count)}, f"KeNB at uplink NAS COUNT {count}")


def nh(draws: Draws) -> Iterator[DrawnCase]:
    while True:
        yield DrawnCase("nh", {"kasme": draws.octets(32), "sync": draws.octets(32)}, "NH")


def star(draws: Draws) -> Iterator[DrawnCase]:
    while True:
        pci, earfcn = draws.number(503), draws.number(262143, 2**16)
        wide = ", an EARFCN-DL of three octets" if earfcn > 0xFFFF else ""
        yield DrawnCase(
            "star",
            {"key": draws.octets(32), "pci": str(pci), "earfcn": str(earfcn)},
            f"KeNB* for PCI {pci} and EARFCN-DL {earfcn}{wide}",
        )


def alg(draws: Draws) -> Iterator[DrawnCase]:
    names = ["NAS-enc", "NAS-int", "RRC-enc", "RRC-int", "UP-enc", "UP-int"]
    for kind, identity in itertools.cycle((kind, identity) for kind in range(1, 7) for identity in range(4)):
        yield DrawnCase(
            "alg",
            {"key": draws.octets(32), "type": str(kind), "id": str(identity)},
            f"{names[kind - 1]}-alg, algorithm {identity}",
        )


def cipher(word: str) -> Callable[[Draws], Iterator[DrawnCase]]:
    """Texts under a cipher or a MAC."""

    def cases(draws: Draws) -> Iterator[DrawnCase]:
        while True:
            fields = {
                "key": draws.octets(16),
                "count": str(draws.number(2**32 - 1)),
                "bearer": str(draws.number(31)),
                "direction": draws.direction(),
                "text": draws.text(80),
            }
            yield DrawnCase(word, fields, f"a text of {len(fields['text']) // 2} octets")

    return cases


def opened(draws: Draws, case: DrawnCase, header: tuple[int, ...], whole: int, count: int, high: int) -> DrawnCase:
    """A case of opening a message, right or spoilt: at these places stand type and sequence number; `whole` octets are
    header and MAC."""
    how = draws.one("right", "right", "MacBit", "WrongCount", "CountSpent", "Cut")
    if how == "right":
        return earlier(draws, case, count)
    if how == "WrongCount" and count + window(case) <= high:
        return dataclasses.replace(
            case, fields=case.fields | {"count": str(count + 1)}, flag=how, comment=f"{case.comment}, opened above it"
        )
    if how == "CountSpent" and count % window(case) != window(case) - 1:
        return dataclasses.replace(
            case,
            fields=case.fields | {"count": str(high)},
            flag=how,
            comment=f"{case.comment}, opened at the last COUNT",
        )
    if how == "MacBit":
        return dataclasses.replace(
            case, flag=how, spoil=lambda octets: draws.bit(octets, header), comment=f"{case.comment}, a bit turned"
        )
    if how == "Cut":
        kept = draws.random.randrange(whole)
        return dataclasses.replace(
            case, flag=how, spoil=lambda octets: octets[:kept], comment=f"{case.comment}, cut to {kept} octets"
        )
    return case


def earlier(draws: Draws, case: DrawnCase, count: int) -> DrawnCase:
    """The case with a least COUNT that may be below that of the message, by less than a turn of its sequence number."""
    least = count - min(count, draws.random.choice([0, 1, window(case) - 1, draws.random.randrange(window(case))]))
    return dataclasses.replace(
        case, fields=case.fields | {"count": str(least)}, comment=f"{case.comment}, from COUNT {least} on"
    )


def window(case: DrawnCase) -> int:
    """How many COUNTs the sequence number of a message tells apart."""
    return {"nas": 256, "srb": 32, "service-request": 32}.get(case.word) or 2 ** int(case.fields["bits"])


def nas(draws: Draws) -> Iterator[DrawnCase]:
    while True:
        count, kind, text = draws.number(2**24 - 1, 256, 2**16), draws.one("1", "2", "3", "4"), draws.text(60)
        begun = {
            "kasme": draws.octets(32),
            "eea": draws.algorithms(),
            "count": str(count),
            "direction": draws.direction(),
        }
        case = DrawnCase(
            "nas",
            begun,
            f"NAS message of type {kind} at COUNT {count}",
            seal=("seal-nas", begun | {"type": kind, "text": text}),
        )
        yield opened(draws, case, (0, 5), 6, count, 2**24 - 1)


def srb(draws: Draws) -> Iterator[DrawnCase]:
    while True:
        count = draws.number(2**32 - 1, 32)
        begun = {
            "key": draws.octets(32),
            "eea": draws.algorithms(),
            "count": str(count),
            "bearer": draws.one("0", "1"),
            "direction": draws.direction(),
        }
        case = DrawnCase(
            "srb",
            begun,
            f"PDU of SRB{int(begun['bearer']) + 1} at COUNT {count}",
            seal=("seal-srb", begun | {"text": draws.text(60)}),
        )
        yield opened(draws, case, (0,), 5, count, 2**32 - 1)


def drb(draws: Draws) -> Iterator[DrawnCase]:
    """A DRB has no MAC: a PDU is cut, or its COUNTs are spent."""
    while True:
        bits = draws.one("7", "12", "15", "18")
        count = draws.number(2**32 - 1, 2 ** int(bits))
        begun = {
            "key": draws.octets(32),
            "eea": draws.one("0", "1", "2", "3"),
            "count": str(count),
            "bearer": str(draws.number(31)),
            "direction": draws.direction(),
            "bits": bits,
        }
        case = DrawnCase(
            "drb",
            begun,
            f"PDU of a DRB with {bits} bits at COUNT {count}",
            seal=("seal-drb", begun | {"text": draws.text(60)}),
        )
        how = draws.one("right", "right", "right", "CountSpent", "Cut")
        if how == "CountSpent" and count % window(case) != window(case) - 1:
            case = dataclasses.replace(
                case,
                fields=begun | {"count": str(2**32 - 1)},
                flag=how,
                comment=f"{case.comment}, opened at the last COUNT",
            )
        elif how == "Cut":
            case = dataclasses.replace(
                case, flag=how, spoil=lambda octets: b"", comment=f"{case.comment}, cut to nothing"
            )
        yield case if case.flag else earlier(draws, case, count)


def reach(draws: Draws) -> Iterator[DrawnCase]:
    """A phone's chain, for each pair of NCCs."""
    for used, ncc in itertools.cycle((used, ncc) for used in range(8) for ncc in range(8)):
        steps = (ncc - used) % 8
        fields = {
            "kasme": draws.octets(32),
            "key": draws.octets(32),
            "ncc-in-use": str(used),
            "sync": draws.octets(32),
            "ncc": str(ncc),
            "pci": str(draws.number(503)),
            "earfcn": str(draws.number(262143, 2**16)),
        }
        yield DrawnCase(
            "reach", fields, f"from NCC {used} to NCC {ncc}: {f'{steps} steps of NH' if steps else 'horizontal'}"
        )


@dataclasses.dataclass(frozen=True)
class Group:
    """Tests of one line of calc: what they show, the names of the outputs, and where the standard has it."""

    what: str
    clause: str
    outputs: tuple[str, ...]
    cases: Callable[[Draws], Iterator[DrawnCase]]


GROUPS: dict[str, Group] = {
    "kasme": Group("KeyDerivation", "TS 33.401 A.2", ("kasme",), kasme),
    "kenb": Group("KeyDerivation", "TS 33.401 A.3", ("kenb",), kenb),
    "nh": Group("KeyDerivation", "TS 33.401 A.4", ("nh",), nh),
    "star": Group("KeyDerivation", "TS 33.401 A.5", ("kenb-star",), star),
    "alg": Group("KeyDerivation", "TS 33.401 A.7", ("algorithm-key",), alg),
    "eea1": Group("Cipher", "TS 33.401 B.1.2", ("ciphertext",), cipher("eea1")),
    "eea2": Group("Cipher", "TS 33.401 B.1.3", ("ciphertext",), cipher("eea2")),
    "eea3": Group("Cipher", "TS 33.401 B.1.4", ("ciphertext",), cipher("eea3")),
    "eia1": Group("Mac", "TS 33.401 B.2.2", ("mac",), cipher("eia1")),
    "eia2": Group("Mac", "TS 33.401 B.2.3", ("mac",), cipher("eia2")),
    "eia3": Group("Mac", "TS 33.401 B.2.4", ("mac",), cipher("eia3")),
    "nas": Group("NasMessage", "TS 24.301 4.4", ("opens", "type", "count", "text"), nas),
    "srb": Group("SrbPdu", "TS 36.323 5.6 and 5.7", ("opens", "count", "text"), srb),
    "drb": Group("DrbPdu", "TS 36.323 5.6", ("opens", "count", "text"), drb),
    "reach": Group("ChainStep", "TS 33.401 7.2.8.4.4", ("way", "steps", "nh", "kenb-star"), reach),
}
REFUSED = {"MacBit": "mac fails", "WrongCount": "mac fails", "CountSpent": "count spent", "Cut": "short"}


def drawn(seed: int, count: int) -> list[DrawnCase]:
    """So many cases, of each group in turn."""
    sources = [group.cases(Draws(seed * len(GROUPS) + place)) for place, group in enumerate(GROUPS.values())]
    return [next(sources[place % len(sources)]) for place in range(count)]


def made(cases: list[DrawnCase]) -> list[DrawnCase]:
    """The cases with their messages, which calc protects, and which are spoilt after that."""
    sealed = [case for case in cases if case.seal]
    pdus = answers([line_of(*case.seal) for case in sealed if case.seal])
    for case, pdu in paired(sealed, pdus):
        case.fields = case.fields | {"pdu": case.spoil(bytes.fromhex(pdu)).hex()}
    return cases


def value(name: str, text: str) -> int | str:
    """A field of a test: numbers as numbers, octets in hex, no octets as an empty text."""
    is_number = name in ("count", "bearer", "type", "id", "bits", "ncc-in-use", "ncc", "pci", "earfcn", "steps")
    return int(text) if is_number else "" if text == "-" else text


def test(number: int, case: DrawnCase, answer: str) -> dict[str, object]:
    """A test of the document. One that must be refused and is not, or for another reason, is a fault of this
    program."""
    if case.flag and not answer.startswith(REFUSED[case.flag]):
        raise TraceError(
            f"calc answers '{answer[:40]}' to a test with the flag {case.flag}: {line_of(case.word, case.fields)[:60]}"
        )
    inputs = {name: value(name, text) for name, text in case.fields.items()}
    if case.flag:
        return {
            "tcId": number,
            "comment": case.comment,
            "in": inputs,
            "out": {"refused": REFUSED[case.flag]},
            "result": "invalid",
            "flags": [case.flag],
        }
    outputs = {
        name: value(name, text) for name, text in zip(GROUPS[case.word].outputs, answer.split(" ")) if name != "opens"
    }
    return {"tcId": number, "comment": case.comment, "in": inputs, "out": outputs, "result": "valid", "flags": []}


def document(seed: int, count: int) -> dict[str, object]:
    """The whole document."""
    cases = made(drawn(seed, count))
    told = answers([line_of(case.word, case.fields) for case in cases])
    tests: dict[str, list[dict[str, object]]] = {word: [] for word in GROUPS}
    places = sorted(range(count), key=lambda place: (list(GROUPS).index(cases[place].word), place))
    for number, place in enumerate(places, 1):
        tests[cases[place].word].append(test(number, cases[place], told[place]))
    groups = [
        {"type": group.what, "line": word, "clause": group.clause, "tests": tests[word]}
        for word, group in GROUPS.items()
        if tests[word]
    ]
    return {
        "algorithm": "LTE access security",
        "schema": "lte_sec_vectors_v1",
        "generatorVersion": str(VERSION),
        "seed": seed,
        "numberOfTests": count,
        "header": [
            (
                "Inputs and outputs are the fields and answers of lines of ./lte_sec "
                "calc (docs/CALC.md); octets are in hex."
            )
        ],
        "notes": FLAGS,
        "testGroups": groups,
    }

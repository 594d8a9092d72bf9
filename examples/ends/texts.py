"""Texts of `ladder` and lines of `calc`, each with its answer. The keys come from an independent HMAC-SHA-256."""
import dataclasses

ROOT = "root 000102030405060708090a0b0c0d0e0f101112131415161718191a1b1c1d1e1f\n"
OTHER = "root 202122232425262728292a2b2c2d2e2f303132333435363738393a3b3c3d3e3f\n"
DERIVED = "root e6267359de012d9bda173d1b6fae57dec0e04e01cfcf57cb33a7573f142b8b95\n"
KENB = "1 kenb e6267359de012d9bda173d1b6fae57dec0e04e01cfcf57cb33a7573f142b8b95\n"
BEGUN = f"0 {ROOT}{KENB}"


@dataclasses.dataclass(frozen=True)
class Case:
    """What is shown, the text, and the status and the output for it."""

    shown: str
    text: str
    status: int
    output: str


ANSWERED = [
    Case("no line", "", 0, ""),
    Case("two lines", f"{ROOT}kenb 0 0\n", 0, BEGUN),
    Case("the same line twice", f"{ROOT}kenb 0 0\nkenb 0 0\n", 0, BEGUN + KENB),
    Case("the last line feed missing, and upper case", f"root {ROOT[5:].upper()}kenb 0 0", 0, BEGUN),
    Case(
        "an algorithm key twice",
        f"{ROOT}kenb 0 0\nalg 1 3 2\nalg 0 2 2\nalg 1 3 2\n",
        0,
        f"{BEGUN}2 alg 9bf10551417d3b3128705dd54a20f8f1ae14c26e3ba014f8e4279841fb8ade28\n"
        "3 alg a66b7492bdd63f0e8896a95429302525b5a0e5f9ee4f887e391e3a640e3a688a\n"
        "2 alg 9bf10551417d3b3128705dd54a20f8f1ae14c26e3ba014f8e4279841fb8ade28\n",
    ),
    Case(
        "cells under a KeNB, under an NH and under a cell, one of them with the last PCI",
        f"{ROOT}kenb 0 0\nnh 0 1\nnh 0 2\nstar 1 503 65535\nstar 3 10 100\nstar 4 11 101\n",
        0,
        f"{BEGUN}2 nh 09aba1730b0aaeee84feac6bc03f66b9aa90d45309b719114a90be777b24b74c\n"
        "3 nh 9b6efffa0cccff877e89572bfcaa77a62fe98e062bbf11dbd7658136df926c93\n"
        "4 star 2ce4f3748097205255f1a84559de09c5dc85e131159ff54901bac8f925c2daca\n"
        "5 star 177d0aa7c792ee64c208c0c085522ae86b178590fad443406532e22527a0b4c7\n"
        "6 star d1bd3be5c11f30a3537f0e9bec5e76bd18d1738fb3b7e42603ffe083c25d443e\n",
    ),
    Case(
        "an EARFCN in three octets",
        f"{ROOT}kenb 0 0\nstar 1 0 65535\nstar 1 0 65536\nstar 1 503 262143\n",
        0,
        f"{BEGUN}2 star 5867a8501c756da83cf9a0fbc155e29200d65aaf5ee56f002c038cc7df1d15e0\n"
        "3 star 99b8d085ec4201335e225b2077c6f24719c68005564f4aae2e7d6ae6f057e20c\n"
        "4 star ee8a0346ac0962cfce383b8dc59c5ae3750e0120881dabb0537a26e48714214d\n",
    ),
    Case("a root with a derived row's octets", f"{ROOT}kenb 0 0\n{DERIVED}", 7, f"{BEGUN}3 coincidence root 1\n"),
    Case(
        "a derivation with a root's octets",
        f"{DERIVED}{ROOT}kenb 1 0\nkenb 1 1\n",
        7,
        f"0 {DERIVED}1 {ROOT}3 coincidence rows 0 {ROOT[5:].strip()} 11000000000004\n",
    ),
]

# What is shown, the text, and the number of its first bad line, which is all that is written.
REFUSED = [
    ("a root twice", f"{ROOT}{ROOT}", 2),
    ("an EARFCN of 19 bits", f"{ROOT}kenb 0 0\nstar 1 0 262144\n", 3),
    ("a SYNC-input that is a root", f"{ROOT}nh 0 0\n", 2),
    ("a SYNC-input of another root", f"{ROOT}kenb 0 0\n{OTHER}nh 2 1\n", 4),
    ("a cell under a root", f"{ROOT}star 0 1 1\n", 2),
    ("a row that does not stand", f"{ROOT}kenb 1 0\n", 2),
    ("a COUNT of 25 bits", f"{ROOT}kenb 0 16777216\n", 2),
    ("a leading zero", f"{ROOT}kenb 0 00\n", 2),
    ("a sign", f"{ROOT}kenb 0 +1\n", 2),
    ("two spaces", f"{ROOT}kenb  0 0\n", 2),
    ("an empty line", f"{ROOT}\n", 2),
    ("63 digits", f"root {ROOT[6:]}", 1),
    ("a line of no kind", f"{ROOT}key 0 1 2\n", 2),
    ("a bad line behind a coincidence", f"{ROOT}kenb 0 0\n{DERIVED}nh 0 0\n", 4),
]

# Behind a root, a KeNB, an NH and an algorithm key, each of these lines is bad.
FOUR_ROWS = f"{ROOT}kenb 0 0\nnh 0 1\nalg 1 3 2\n"
BAD_FIFTH = {
    "an algorithm key of another kind of key": ["alg 1 1 2", "alg 1 2 2", "alg 0 3 2", "alg 0 4 2", "alg 0 5 2"],
    "an algorithm key of no algorithm": ["alg 1 4 0", "alg 0 2 0", "alg 1 3 1", "alg 1 0 2", "alg 1 6 2"],
    "an algorithm key of an NH": ["alg 2 3 2", "alg 2 4 2", "alg 2 5 2", "alg 2 1 2", "alg 2 2 2"],
    "a key of an algorithm key": ["kenb 3 0", "nh 0 3", "nh 3 1", "star 3 1 1", "alg 3 3 2"],
    "another form": ["alg 4 3 2", "alg 1 03 2", "alg 1 3", "alg 1 3 2 2", "Alg 1 3 2"],
}

# A line of `calc` of 72 octets with its line feed, and its answer.
LINE = f"kenb {ROOT[5:-1]} 0\n"
ANSWER = KENB[7:]

# Lines of `calc` with their answers: the last line needs no line feed, and a line may have 65,536 octets before its
# own.
CALCULATED = [
    Case("a last line without its line feed", f"{LINE}{LINE[:-1]}", 0, 2 * ANSWER),
    Case("a last line that is cut", f"{LINE}{LINE[:-2]}", 3, f"{ANSWER}bad count\n"),
    Case("a line of 65,536 octets", f"{65536 * '0'}\n{LINE}", 3, f"bad word\n{ANSWER}"),
    Case("a line of 65,537 octets", f"{LINE}{65537 * '0'}\n{LINE}", 9, ANSWER),
    Case("a line of 65,537 octets that does not end", f"{LINE}{65537 * '0'}", 9, ANSWER),
]

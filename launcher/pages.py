#!/usr/bin/env python3
"""Makes the man page and the completions for bash, zsh and fish of the table `words`, the schema of scenarios of the
table of fields, and the words in that of what-if, and writes them where they belong: launcher/pages.py.

`share` is laid out as below a prefix such as /usr, for whoever packages it. The exit statuses are those of README.md. A
test wants both as they are made here.
"""
from __future__ import annotations

import itertools
import json
import pathlib
import re
import sys

HERE = pathlib.Path(__file__).resolve().parent
TOP = HERE.parent
sys.path.insert(0, str(TOP / "python"))
import schema  # noqa: E402
import shells  # noqa: E402
from lte_sec.common import tables  # noqa: E402
from lte_sec.common.options import WordRow, rows as rows  # noqa: E402
from lte_sec.whatif import healing  # noqa: E402

MAN, COMPLETIONS = TOP / "share/man/man1/lte_sec.1", TOP / "share/bash-completion/completions/lte_sec"
ZSH, FISH = TOP / "share/zsh/vendor-completions/_lte_sec", TOP / "share/fish/vendor_completions.d/lte_sec.fish"
SCENARIO, WHAT_IF = TOP / "share/schema/scenario.schema.json", TOP / "share/schema/what-if.schema.json"
# What may stand for a name in capitals, where it can be completed.
KINDS = tables.FAULTS
OUTCOMES = [word.replace(" ", "-") for word in tables.OUTCOMES]
# What may stand behind an option or a fixed argument, where it is one of a few.
VALUES = {
    "what-if --kinds": [
        ",".join(some) for count in range(1, len(KINDS) + 1) for some in itertools.combinations(KINDS, count)
    ],
    "what-if --bad": OUTCOMES,
    "what-if --faults": list("123"),
    "what-if --goal": OUTCOMES,
    "what-if --up-to": list("12345678"),
    "drive --answers": ["done"],
    "serve station": list("01234567"),
}
TAKES = {"FILE": "file", "SCENARIO": "file", "CAPTURE": "file", "FOLDER": "folder", "CMD": "command"}


def offered(word: WordRow) -> str:
    return " ".join(name.split(" ")[0] for name, _ in word.below)


def programs() -> dict[str, list[str]]:
    """The programs, and the words that each answers."""
    names = [line for line in (HERE / "programs").read_text().splitlines() if not line.startswith("#")]
    return {name: [word.name for word in rows() if word.by.split(" ")[0] == name] for name in names}


def takes(behind: str) -> str:
    """What is completed where this stands: a file, a folder, a command, or nothing."""
    return next((TAKES[name] for name in re.findall(r"[A-Z]+", behind) if name in TAKES), "")


def values(word: str, option: str) -> list[str]:
    """What may stand behind an option of a word, where it is one of a few."""
    return VALUES.get(f"{word} {option}", [])


# The man page.


def plain(text: str) -> str:
    """A text as roff has it."""
    return re.sub(r"^([.'])", r"\\&\1", text.replace("\\", "\\e").replace("-", "\\-"), flags=re.MULTILINE)


def sentence(text: str) -> str:
    return plain(text[0].upper() + text[1:]) + "."


def named(name: str, behind: str) -> str:
    """A word or an option in bold, and what follows it with names in italics."""
    fonted = re.sub(r"--[a-z]+|[A-Z]+", lambda it: f"\\f{'I' if it[0].isupper() else 'B'}{plain(it[0])}\\fR", behind)
    return f"\\fB{plain(name)}\\fR {fonted}".rstrip()


def entry(word: WordRow) -> list[str]:
    lines = [".TP", named(word.name, word.behind), sentence(word.does)]
    for name, does in word.below:
        option, _, argument = name.partition(" ")
        lines += [".RS", ".TP", named(option, argument), sentence(does), ".RE"]
    return lines


def statuses() -> list[str]:
    rows = re.findall(r"^\| ([0-9, ]+) \| (.*) \|$", (TOP / "README.md").read_text(), re.MULTILINE)
    return [
        line for numbers, meaning in rows for line in (".TP", f"\\fB{numbers}\\fR", sentence(meaning.replace("`", "")))
    ]


def man() -> str:
    all_words = rows()
    lines = [
        '.\\" Made by launcher/pages.py of the table launcher/words.',
        f'.TH LTE_SEC 1 "" "lte_sec {(TOP / "VERSION").read_text().strip()}" "User Commands"',
        ".SH NAME",
        "lte_sec \\- computes LTE access security (TS 33.401), and checks yours against it",
        ".SH SYNOPSIS",
        ".B lte_sec",
        "\\fIWORD\\fR [\\fIARGUMENT\\fR].\\|.",
        ".SH DESCRIPTION",
        (
            "Computes from the key KASME on which keys a phone, its base stations and the core have, who can derive "
            "which, what each message"
        ),
        (
            "contains, and where two sides come apart. A word that reads a text reads the file that is named behind "
            "it, or standard input."
        ),
        "What the launcher itself says is on standard error.",
        ".SH WORDS",
        *(line for word in all_words if not word.name.startswith("-") for line in entry(word)),
        ".SH OPTIONS",
        *(line for word in all_words if word.name.startswith("-") for line in entry(word)),
        ".SH EXIT STATUS",
        *statuses(),
        ".SH ENVIRONMENT",
        ".TP",
        "\\fBLTE_SEC_LIBRARY\\fR",
        "The file of the library for the Python package, in place of library/built/liblte_sec.so.",
        ".TP",
        "\\fBCC\\fR",
        "The C compiler that links the library, in place of cc.",
        ".SH EXAMPLES",
        ".nf",
        *(plain(f"lte_sec {word.example}") for word in all_words if not word.name.startswith("-")),
        ".fi",
        ".SH SEE ALSO",
        (
            "README.md and docs/COMMANDS.md; docs/SCENARIOS.md, docs/CALC.md, docs/TRACES.md and docs/WHATIF.md on "
            "texts and answers"
        ),
    ]
    return "\n".join(lines) + "\n"


# The completions.


def cases(rows: dict[str, str]) -> list[str]:
    """The lines of a `case`, one for all keys with the same answer."""
    answers = dict.fromkeys(rows.values())
    return [
        f"        {' | '.join(key for key, value in rows.items() if value == answer)}) {answer} ;;"
        for answer in answers
    ]


def completions() -> str:
    all_words = rows()
    behind = {
        f"1{word.name}": f"offered='{offered(word)}' takes='{takes(word.behind)}'"
        for word in all_words
        if word.below or takes(word.behind)
    }
    valued = {}
    for word in all_words:
        for option, _, argument in (name.partition(" ") for name, _ in word.below):
            if argument:
                valued[
                    f"'{word.name} {option}'"
                ] = f"offered='{' '.join(VALUES.get(f'{word.name} {option}', []))}' takes='{takes(argument)}'"
    names = " ".join(word.name for word in all_words)
    return (
        "\n".join(
            [
                (
                    "# Completions of lte_sec for bash: words, options, and files where one is taken. Made by "
                    "launcher/pages.py of the table launcher/words."
                ),
                "# shellcheck shell=bash",
                "_lte_sec() {",
                (
                    "    local word=${COMP_WORDS[1]} before=${COMP_WORDS[COMP_CWORD - 1]} "
                    "current=${COMP_WORDS[COMP_CWORD]} offered='' takes=''"
                ),
                "    case $((COMP_CWORD > 1))$word in",
                f"        0*) offered='{names} help' ;;",
                f"        1help | 1--help | 1-h) offered='{names}' ;;",
                *cases(behind),
                "    esac",
                "    # What follows an option that takes something.",
                '    case "$word $before" in',
                *cases(valued),
                "    esac",
                '    mapfile -t COMPREPLY < <(compgen -W "$offered" -- "$current")',
                "    case $takes in",
                '        file) mapfile -t -O ${#COMPREPLY[@]} COMPREPLY < <(compgen -f -- "$current") ;;',
                '        folder) mapfile -t -O ${#COMPREPLY[@]} COMPREPLY < <(compgen -d -- "$current") ;;',
                '        command) mapfile -t -O ${#COMPREPLY[@]} COMPREPLY < <(compgen -c -- "$current") ;;',
                "    esac",
                "    case $takes in file | folder) compopt -o filenames 2>/dev/null ;; esac",
                "}",
                "complete -F _lte_sec lte_sec",
            ]
        )
        + "\n"
    )


def what_if() -> str:
    """The schema of the answers of `what-if`, with the words that there are."""
    document = json.loads(WHAT_IF.read_text())
    variant = document["$defs"]["variant"]["properties"]
    variant["outcomes"]["items"]["properties"]["is"]["enum"] = list(tables.OUTCOMES)
    for kind in (
        document["properties"]["tried"]["properties"]["kinds"]["items"],
        variant["faults"]["items"]["properties"]["kind"],
    ):
        kind["enum"] = list(KINDS)
    document["$defs"]["heals"]["properties"]["by"]["enum"] = [
        *(word for word in tables.HEALS if word != healing.NOTHING),
        None,
    ]
    return json.dumps(document, indent=2) + "\n"


def made() -> dict[pathlib.Path, str]:
    """The files, and what stands in each."""
    of_shells = {ZSH: shells.zsh(rows(), takes, values), FISH: shells.fish(rows(), takes, values)}
    return {
        MAN: man(),
        COMPLETIONS: completions(),
        **of_shells,
        SCENARIO: schema.text_of(schema.scenario()) + "\n",
        WHAT_IF: what_if(),
    }


def main() -> None:
    for file, text in made().items():
        file.parent.mkdir(parents=True, exist_ok=True)
        file.write_text(text)


if __name__ == "__main__":
    main()

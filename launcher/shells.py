"""Completions of lte_sec for zsh and fish, of the table `words`; `pages.py` has those for bash and writes them all."""
from __future__ import annotations

from collections.abc import Callable, Iterator, Sequence

from lte_sec.common.options import WordRow

MADE = "made by launcher/pages.py of the table launcher/words."
Takes = Callable[[str], str]  # what is completed where this stands: file, folder, command or nothing
Values = Callable[[str, str], list[str]]  # what may stand behind an option of a word


def quoted(text: str) -> str:
    """A text as one word of a shell."""
    return "'" + text.replace("'", "'\\''") + "'"


def short(text: str) -> str:
    return text.partition(";")[0].strip()


# fish


def fish(words: Sequence[WordRow], takes: Takes, values: Values) -> str:
    lines = [f"# Completions of lte_sec for fish, {MADE}", "complete -c lte_sec -f"]
    for word in words:
        option = word.name.startswith("--")
        lines.append(
            f"complete -c lte_sec -n __fish_use_subcommand {'-l ' + word.name[2:] if option else '-a ' + word.name} "
            f"-d {fished(short(word.does))}"
        )
    for word in words:
        where = f"complete -c lte_sec -n '__fish_seen_subcommand_from {word.name}'"
        if takes(word.behind):
            lines.append(f"{where} {fish_takes(takes(word.behind))}")
        for name, does in word.below:
            lines.append(f"{where} {fish_option(name, word.name, takes, values)} -d {fished(does)}")
    return "\n".join(lines) + "\n"


def fished(text: str) -> str:
    """A text in quotes of fish."""
    return "'" + text.replace("\\", "\\\\").replace("'", "\\'") + "'"


def fish_takes(kind: str) -> str:
    return {
        "file": "-F",
        "folder": "-a '(__fish_complete_directories)'",
        "command": "-a '(__fish_complete_command)'",
    }.get(kind, "")


def fish_option(name: str, word: str, takes: Takes, values: Values) -> str:
    option, _, argument = name.partition(" ")
    if not option.startswith("--"):
        return f"-a {option}"
    few = values(word, option)
    behind = f" -x -a '{' '.join(few)}'" if few else f" -r {fish_takes(takes(argument))}" if argument else ""
    return f"-l {option[2:]}{behind}".rstrip()


# zsh


def zsh(words: Sequence[WordRow], takes: Takes, values: Values) -> str:
    lines = ["#compdef lte_sec", f"# Completions of lte_sec for zsh, {MADE}", "local -a known", "known=("]
    lines += [f"    {quoted(word.name.replace(':', chr(92) + ':') + ':' + short(word.does))}" for word in words]
    lines += [
        ")",
        "if (( CURRENT == 2 )); then",
        "    _describe word known",
        "    return",
        "fi",
        "shift words",
        "(( CURRENT-- ))",
        "case $words[1] in",
    ]
    for word in words:
        specs = list(zsh_specs(word, takes, values))
        if specs:
            lines.append(f"    {word.name}) _arguments {' '.join(map(quoted, specs))} ;;")
    return "\n".join([*lines, "esac"]) + "\n"


def zsh_specs(word: WordRow, takes: Takes, values: Values) -> Iterator[str]:
    """What `_arguments` is told of a word: its options, and what stands where none does."""
    fixed = [name.split(" ")[0] for name, _ in word.below if not name.startswith("--")]
    for name, does in word.below:
        option, _, argument = name.partition(" ")
        if option.startswith("--"):
            few = values(word.name, option)
            action = f"({' '.join(few)})" if few else zsh_takes(takes(argument))
            yield f"*{option}[{bracketed(does)}]" + (f":{argument.split(' ')[0].lower()}:{action}" if argument else "")
    other = zsh_takes(takes(word.behind))
    if fixed:
        files = f' "files:file:{other}"' if other else ""
        yield f'*: : _alternative "words:word:({" ".join(fixed)})"{files}'
    elif other:
        yield f"*:file:{other}"


def zsh_takes(kind: str) -> str:
    return {"file": "_files", "folder": "_files -/", "command": "_command_names"}.get(kind, "")


def bracketed(text: str) -> str:
    return text.replace("[", "(").replace("]", ")").replace(":", "\\:")

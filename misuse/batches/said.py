"""What the prover says of a crate with edits in it, read by function."""
import dataclasses
import enum
import re

from batches.functions import Function

FUNCTION = re.compile(r"fn (\w+)::(\S+): (.*)")
SEARCHED = re.compile(r"`search` did not prove ((?:`[^`]+`(?:, | and )?)+)")
STANDS_ON = re.compile(r"`Rattle\.\w+\.proofs\.([^`]+)`")
IN_PROOF = re.compile(r"(?:\./)?proofs/(\S+)\.antt:\d+:\d+: error: (?:`([^`]*)`: )?(.*)")
OPEN = re.compile(r"note: src/\S+: it is not proved that .*?\(`([^`]+)`\)(; the facts known there allow values)?")
UNREAD = re.compile(r"(?:\./)?((?:src|specs)/\S+?):\d+:\d+: error(?:\[[\w-]+\])?: (.*)")
NAME_WENT = re.compile(r"has no field|is not in scope|has no `|was not admitted|is no name|the elim needs: use")
ENDS = re.compile(r"(holes|only)=\d+|logic=")
NO_VERDICT = re.compile(r"could not tell")


class Kind(enum.Enum):
    """What an edit came to."""

    REFUSED = "refused"  # by a goal of its function, or of one that stands on it
    WEAK = "weak"  # only as a proof file names what went
    PROVED = "proved"  # the contract lets it through
    UNCLEAR = "unclear"  # what the prover says may come from another edit beside it
    BAD = "bad"  # it never reached the prover
    UNTRIED = "untried"  # the check was ended, or ran into a limit


@dataclasses.dataclass(frozen=True)
class Verdict:
    """What an edit came to, with the function and its goals that refused it, or why it was not refused."""

    kind: Kind
    function: str = ""
    goals: tuple[str, ...] = ()
    why: str = ""


@dataclasses.dataclass(frozen=True)
class Line:
    """What the prover says of one function: its open goals, which of them only lack a name, what else it stands on that
    the prover refuses, and whether nothing is open."""

    path: str
    goals: tuple[str, ...]
    nameless: frozenset[str]
    lemmas: tuple[str, ...]
    holds: bool
    is_told: bool = True  # the prover came to a verdict

    @property
    def refusing(self) -> tuple[str, ...]:
        """The goals that are open for what the code does."""
        return tuple(it for it in self.goals if it not in self.nameless)


@dataclasses.dataclass(frozen=True)
class Said:
    """What a check said: of each function, or the first line of why it did not come so far."""

    lines: tuple[Line, ...]
    reached: bool
    first_error: str


def read_said(text: str) -> Said:
    """Reads the output of a check."""
    errors: dict[tuple[str, str], list[str]] = {}
    lines, notes, unread, reached = [], [], "", False
    for line in text.split("\n"):
        proof = IN_PROOF.match(line)
        if proof:
            errors.setdefault((proof[1].replace("/", "::"), proof[2] or ""), []).append(proof[3])
        unread = unread or (line if UNREAD.match(line) else "")
        reached = reached or bool(ENDS.match(line))
        # what is open of a function stands above its line
        notes += [(it[1], bool(it[2])) for it in [OPEN.match(line)] if it]
        found = FUNCTION.fullmatch(line)
        if found:
            told = line_of(found[1], found[2], found[3], errors)
            lines.append(by_notes(told, notes, errors) if found[3] == "not proved" else told)
            notes = []
    return Said(tuple(lines), reached and bool(lines), unread or first_complaint(text))


def line_of(crate: str, path: str, rest: str, errors: dict[tuple[str, str], list[str]]) -> Line:
    """What the rest of a function's line says. Only goals of its own are its goals: what it calls may have an edit
    too."""
    searched = [goal for piece in SEARCHED.findall(rest) for goal in re.findall(r"`([^`]+)`", piece)]
    own = Function(path.replace("::fn::", "::").removeprefix("fn::"))
    refused, lemmas, nameless = [], [], set()
    for cited in STANDS_ON.findall(rest):
        module, _, goal = cited.replace(".", "::").rpartition("::")
        if not own.has(module):
            lemmas.append(cited)
            continue
        refused.append(goal)
        said = errors.get((module, goal), [])
        if said and all(NAME_WENT.search(it) for it in said):
            nameless.add(goal)
    goals = tuple(dict.fromkeys([*searched, *refused]))
    return Line(path, goals, frozenset(nameless), tuple(lemmas), rest == "no holes", not NO_VERDICT.search(rest))


def by_notes(line: Line, notes: list[tuple[str, bool]], errors: dict[tuple[str, str], list[str]]) -> Line:
    """The line of a function whose goals have other names than its proof file answers: what stands open says something
    of the code only where the prover knows values at which it is false."""
    own = [it for (module, _), told in errors.items() if Function(line.path).has(module) for it in told]
    goals = tuple(goal for goal, is_false in notes if is_false) or tuple(goal for goal, _ in notes)
    says_nothing = own and all(NAME_WENT.search(it) for it in own) and not any(is_false for _, is_false in notes)
    return dataclasses.replace(line, goals=goals, nameless=frozenset(goals if says_nothing else ()))


def first_complaint(text: str) -> str:
    """The first line that tells of an error."""
    lines = [it for it in text.split("\n") if it.strip()]
    return next(
        (it for it in lines if re.search(r"\berror\b|no verdict", it)), lines[0] if lines else "it said nothing"
    )


def judge(said: Said, functions: tuple[Function, ...], is_by_itself: bool) -> Verdict:
    """What an edit in these functions came to. Where it was tried by itself, whatever is open is its doing."""
    own = [line for line in said.lines if any(it.has(line.path) for it in functions)]
    named = functions[0].path if functions else ""
    for lines in (own, said.lines if is_by_itself else ()):
        for line in lines:
            if line.refusing:
                return Verdict(Kind.REFUSED, line.path, line.refusing)
    seen = own or (said.lines if is_by_itself else ())
    if not seen:
        return Verdict(Kind.BAD, named, why="the prover says nothing of this function")
    for line in seen:
        if line.goals:
            return Verdict(Kind.WEAK, line.path, line.goals)
        if line.lemmas and is_by_itself:
            return Verdict(Kind.REFUSED, line.path, line.lemmas)
    if not all(it.is_told for it in seen):
        return Verdict(Kind.UNTRIED, named, why="the prover came to a limit of its own")
    if all(it.holds for it in (said.lines if is_by_itself else own)):
        return Verdict(Kind.PROVED, named)
    return Verdict(Kind.UNCLEAR, named)

"""The first fault of a document that is not a scenario, as the program looks for it."""
import dataclasses

from .document import PlacedValue, TextFault
from .kinds import Setup, nearest, one_of, shown, words
from .scenario_fields import MOST_STATIONS, MOST_STEPS, OF_CORE, SETUP, STEPS, Field, of_phone

RUN, FLEET, TWO = "run", "fleet", "two"


@dataclasses.dataclass(frozen=True)
class GivenTable:
    """A table of the document with the fields that it may have, its names in messages and in the program's lines, and a
    key that it has only in what."""

    name: str
    line: str
    of: PlacedValue
    fields: list[Field]
    setup: Setup
    only: tuple[str, str] = ("", "")

    def applies(self, field: Field) -> bool:
        """Whether the table may have the field: no other field, whose value is right, rules it out."""
        name, *calling = field.when or ("",)
        other = self.of.is_.get(name) if field.when else None
        return (
            other is None
            or other.is_ in calling
            or any(it.kind.wrong(other, self.setup) for it in self.fields if it.name == name and self.applies(it))
        )

    def judge(self) -> None:
        """Keys that are not fields come first, and then the fields in order."""
        known = [field for field in self.fields if self.applies(field)]
        for key, value in self.of.is_.items():
            if key not in [field.name for field in known]:
                raise TextFault(
                    value.key, f"{self.name} takes no {key}{self.instead(key, known)}", f"{self.line} unknown"
                )
        for field in known:
            given = self.of.is_.get(field.name)
            if given is None and not field.left_out:
                raise TextFault(
                    self.of.place,
                    f"{self.name} has no {field.name}, which is {field.kind.may}",
                    f"{self.line} missing {field.name}",
                )
            if given and (wrong := field.kind.wrong(given, self.setup)):
                raise TextFault(
                    given.place,
                    f"{self.name}: {field.name} {wrong}; it must be {field.kind.may}",
                    f"{self.line} wrong {field.name}",
                )

    def instead(self, key: str, known: list[Field]) -> str:
        """Why a key stands here in vain, or which may have been meant, as the end of a sentence."""
        for field in self.fields:
            if field.name == key:
                return f" where {field.when[0]} is {shown(self.of.is_[field.when[0]])}"
        return f"; only {self.only[1]} has it" if key == self.only[0] else nearest(key, [field.name for field in known])


def judge_section(top: PlacedValue, name: str, setup: Setup) -> None:
    """A table of the setup."""
    given = top.is_.get(name)
    if given is None and name != "core":
        raise TextFault(
            0, f"there is no table [{name}], as [{name}] {SETUP[name][0].name} = ..", f"refused setup missing {name}"
        )
    if given and not isinstance(given.is_, dict):
        raise TextFault(given.place, f"{name} is {shown(given)}; it must be a table", f"refused setup wrong {name}")
    if given:
        GivenTable(f"[{name}]", "refused setup", given, SETUP[name], setup).judge()


def tables(top: PlacedValue, name: str) -> list[PlacedValue]:
    """The tables of stations or steps, which are an array and not too many."""
    given = top.is_.get(name) or PlacedValue(0, [])
    if not isinstance(given.is_, list) or not all(isinstance(it.is_, dict) for it in given.is_):
        raise TextFault(
            given.place, f"{name} is {shown(given)}; each {name} is a table [[{name}]]", f"refused setup wrong {name}"
        )
    if name == "station" and not given.is_:
        raise TextFault(
            given.place,
            "there is no station, as [[station]] id = 0, cells = [[10, 100]]",
            "refused setup missing station",
        )
    most, may, line = (
        (MOST_STATIONS, "1 to ", "refused setup wrong station")
        if name == "station"
        else (MOST_STEPS, "", "refused steps")
    )
    if len(given.is_) > most:
        raise TextFault(
            given.is_[most].place, f"there are {len(given.is_):,} {name}s; there may be {may}{most:,}", line
        )
    return given.is_


def judge_step(number: int, table: PlacedValue, whose: list[Field], setup: Setup) -> None:
    """`do` comes first, and then the fields that go with it, those of a fleet before the others."""
    line, given = f"refused step {number}", table.is_.get("do")
    if given is None:
        raise TextFault(table.place, f"step {number} has no do, which says what happens", f"{line} missing do")
    do = given.is_ if isinstance(given.is_, str) else ""
    if do not in STEPS:
        meant = nearest(do, list(STEPS)) or f"; it must be {one_of(list(STEPS))}"
        raise TextFault(given.place, f"step {number}: do is {shown(given)}{meant}", f"{line} wrong do")
    fields = [Field("do", words(do)), *whose, *STEPS[do]]
    GivenTable(f"step {number} ({do})", line, table, fields, setup, ("phone", "a step of a fleet")).judge()


def judge(top: PlacedValue, kind: str) -> None:
    """Raises the first fault of a document as a scenario of this kind, in the order in which the program looks for
    them."""
    sections = ["fleet", "phone", "core"] if kind == FLEET else ["phone", "core"]
    setup, known = Setup(), [*sections, "station", "step"]
    for key, value in top.is_.items():
        if key not in known:
            more = "; only a scenario of a fleet has it" if key == "fleet" else nearest(key, known)
            raise TextFault(value.key, f"there is no {key} at the top of this scenario{more}", "refused setup unknown")
    for name in sections:
        judge_section(top, name, setup)
    fields = SETUP["station"] + ([OF_CORE] if kind == TWO else [])
    for table in tables(top, "station"):
        GivenTable("[[station]]", "refused setup", table, fields, setup, ("core", "a scenario of two cores")).judge()
    whose = [of_phone(top.is_["fleet"].is_["phones"].is_)] if kind == FLEET else []
    for number, table in enumerate(tables(top, "step")):
        judge_step(number, table, whose, setup)

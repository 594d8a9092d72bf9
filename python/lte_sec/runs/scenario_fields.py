"""The fields of the tables of a scenario, in the order in which they are looked at. docs/SCENARIOS.md has its tables
from here."""
import dataclasses

from .kinds import CELL, CELLS, INTEGER, NEW_STATION, PRIORITY, STATION, ValueKind, number, octets, words


@dataclasses.dataclass(frozen=True)
class Field:
    """A field: its name, its kind, what holds where it is left out, if it may be, and, where another field can rule it
    out, that field and the words of it that call for this one. Also what it means: of the setup with what may stand
    there, of a step where its name does not say it."""

    name: str
    kind: ValueKind
    left_out: str = ""
    when: tuple[str, ...] = ()
    means: str = ""


NUMBER, MOST_STEPS, MOST_STATIONS = 2**32 - 1, 200_000, 8
SRBS, DRBS = ("srb1", "srb2"), ("drb1", "drb2", "drb3", "drb4")


def numbers(priority: str, first: str) -> list[Field]:
    """What core and stations choose algorithms and draw numbers by."""
    return [
        Field("priority", PRIORITY, "[2, 0]", means=priority),
        Field("first", number(1, NUMBER), "1", means=f"{first}, {{may}}"),
    ]


UE_CAPS = (
    "the phone's capabilities: EEA0 to EEA7 and EIA0 to EIA7 in {may} (UE security capability, TS 24.301 9.9.3.36)"
)
FIRST_NCC = "the NCC of the first pair of NH and NCC that the core sends for a chain, {may}"
SETUP: dict[str, list[Field]] = {
    "fleet": [Field("phones", number(1, 256), means="how many phones there are, {may}; each starts as `[phone]` says")],
    "phone": [Field("caps", octets(2), means=UE_CAPS)],
    "core": [
        *numbers("{may}, the preferred one first", "the first connection number that the core draws"),
        Field("first_ncc", number(1, 2), "1", means=FIRST_NCC),
    ],
    "station": [
        Field("id", NEW_STATION, means="a number {may}"),
        *numbers("as for the core", "the first number that it draws for air addresses, attempts and requests"),
        Field("cells", CELLS, means="{may}"),
    ],
}
# Of a station, where there are two cores.
OF_CORE = Field("core", number(0, 1), "0", means="the core that the station belongs to, {may}")


def of_phone(phones: int) -> Field:
    """The phone of a step, where there are so many."""
    means = "the phone that the step happens to, 0 to `phones` less 1"
    return Field("phone", number(0, phones - 1), "0", means=means)


def of_actor(name: str) -> list[Field]:
    """An actor under this name, and a bearer of it."""
    bearers = {"phone": ("nas", *SRBS, *DRBS), "station": SRBS + DRBS, "core": ("nas",)}
    return [
        Field(name, words(*bearers)),
        *(Field("bearer", words(*those), when=(name, actor)) for actor, those in bearers.items()),
    ]


def sent(bearers: tuple[str, ...], most: int) -> list[Field]:
    """A text that phone or station sends."""
    from_ = [Field("from", words("phone", "station")), Field("station", STATION, when=("from", "station"))]
    return [*from_, Field("bearer", words(*bearers)), Field("text", octets(most, exactly=False))]


ACTOR, *ITS_BEARERS = of_actor("who")
STEPS: dict[str, list[Field]] = {
    "auth": [
        Field("ksi", number(0, 6)),
        Field("kasme", octets(32)),
        Field("caps", octets(2), "those of [phone]", means="the capabilities that the core learns"),
    ],
    "smc": [],
    "connect": [Field("cell", CELL)],
    **dict.fromkeys(("release", "service", "resend", "idle"), []),
    **dict.fromkeys(("x2", "s1", "intra"), [Field("station", STATION), Field("cell", CELL, means="the target")]),
    **dict.fromkeys(("command", "cancel", "ask"), [Field("station", STATION)]),
    "deliver": [Field("record", INTEGER)],
    "user": sent(DRBS, 1500),
    "rrc": sent(SRBS, 200),
    "nas": [Field("from", words("phone", "core")), Field("text", octets(200, exactly=False))],
    "skip": [ACTOR, Field("station", STATION, when=("who", "station")), *ITS_BEARERS, Field("n", number(0, NUMBER))],
    "inject": [
        *of_actor("to"),
        *(
            Field(name, kind, when=("bearer", *SRBS, *DRBS))
            for name, kind in (("station", STATION), ("air", number(0, NUMBER)))
        ),
        Field("octets", octets(1536, exactly=False)),
    ],
}
# What happens at a step.
HAPPENS = {
    "auth": "phone and core authenticate",
    "smc": "the core sends a NAS Security Mode Command",
    "connect": "the core sets up the phone's context at the station with this cell",
    "release": "the core releases the context",
    "service": "the phone sends a Service Request",
    "resend": "the phone sends the completion of its last handover again",
    "idle": "the phone leaves its connection",
    "x2": "a station opens a handover over X2",
    "s1": "a station opens a handover over S1",
    "intra": "a station opens a handover within itself",
    "command": "a station sends the command of its handover, for the first time or again",
    "cancel": "a station cancels its handover",
    "ask": "a station sends a Path Switch Request again",
    "deliver": "a record arrives",
    "user": "a user packet is sent",
    "rrc": "an RRC text is sent",
    "nas": "a NAS text is sent",
    "skip": "the sender skips this many COUNTs",
    "inject": "octets that nobody sent arrive",
}

"""A procedure: the steps of a scenario, and beside each what the standard has it give."""
from __future__ import annotations

import dataclasses
import typing

from derivations import CELLS, KASMES, kenb, star

NCCS: typing.Final = 8


@dataclasses.dataclass
class Wanted:
    """What a step gives by the standard: its answer, and the NCC, way and key that its line tells."""

    answer: str = "done"
    ncc: int | None = None
    way: str | None = None
    key: bytes | None = None
    departs: bool = False


class Procedure:
    """Builds the steps. Each method adds what one message, act or whole exchange of the standard is here."""

    def __init__(
        self,
        shows: str,
        *,
        first_ncc: int = 2,
        caps: str = "a020",
        cores: int = 1,
        priorities: dict[int, list[int]] | None = None,
    ) -> None:
        self.shows = shows
        self.cores = cores
        self.priorities = priorities or {}
        self.steps: list[str] = []
        self.wanted: list[Wanted] = []
        self.rows: list[bytes] = []
        self.records = 0
        self._head = (first_ncc, caps)

    def step(self, text: str, wanted: Wanted = Wanted(), *, sends: bool = False) -> int:
        """A step of the scenario; answers the number of the record that it sends."""
        self.steps.append(f"{{ do = {text} }}")
        self.wanted.append(wanted)
        self.records += sends
        return self.records - 1

    def deliver(self, record: int = -1, wanted: Wanted = Wanted(), *, sends: bool = False) -> int:
        """The delivery of a record, of the newest where none is named."""
        return self.step(f'"deliver", record = {record}', wanted, sends=sends)

    def arrives(self, times: int = 1) -> None:
        """The newest record arrives, and what its receiver sends for it, so many times in all."""
        for turn in range(times):
            self.deliver(sends=turn + 1 < times)

    def authenticate(self, ksi: int = 0, caps: str = "") -> None:
        """AKA leaves a KASME at both ends; the core hears other capabilities where some are named."""
        heard = f', caps = "{caps}"' if caps else ""
        self.step(f'"auth", ksi = {ksi}, kasme = "{KASMES[ksi].hex()}"{heard}')

    def command_nas(self, *, wanted: Wanted = Wanted()) -> int:
        """The core sends its NAS Security Mode Command."""
        return self.step('"smc"', wanted, sends=wanted.answer == "done")

    def secure_nas(self, ksi: int = 0) -> None:
        """AKA, NAS Security Mode Command and Complete."""
        self.authenticate(ksi)
        self.command_nas()
        self.arrives(2)

    def connect(self, station: int, key: bytes) -> None:
        """Initial Context Setup at a station, and RRC security there."""
        self.step(f'"connect", cell = {list(CELLS[station])}', Wanted(ncc=0, way="initial", key=key), sends=True)
        self.deliver(wanted=Wanted(ncc=0, way="given", key=key), sends=True)
        self.deliver(wanted=Wanted(ncc=0, way="initial", key=key), sends=True)
        self.deliver()

    def attach(self) -> bytes:
        """NAS security and a connection at station 0; answers its KeNB, of the COUNT 0 of the Security Mode
        Complete."""
        key = kenb(KASMES[0], 0)
        self.secure_nas()
        self.connect(0, key)
        return key

    def mismatch(self, ksi: int, caps: str) -> None:
        """A NAS Security Mode Command with capabilities that are not the phone's, and its Reject."""
        self.authenticate(ksi, caps)
        self.command_nas()
        self.deliver(wanted=Wanted(answer="CapsMismatch"), sends=True)
        self.deliver()

    def message(self, times: int = 1) -> None:
        """NAS messages of the phone, which arrive."""
        for _ in range(times):
            self.step('"nas", from = "phone", text = "01"', sends=True)
            self.deliver()

    def release(self) -> None:
        """The core releases the connection, and the phone goes idle."""
        self.step('"release"', sends=True)
        self.deliver()
        self.step('"idle"')

    def request_service(self) -> None:
        """A Service Request that arrives."""
        self.step('"service"', sends=True)
        self.deliver()

    def over_x2(self, source: int, target: int, ncc: int, key: bytes, way: str, *, departs: bool = False) -> int:
        """A handover over X2 as far as the target's Path Switch Request, whose record it answers."""
        given = Wanted(ncc=ncc, way=way, key=key, departs=departs)
        self.step(f'"x2", station = {source}, cell = {list(CELLS[target])}', given, sends=True)
        self.deliver(wanted=Wanted(ncc=ncc, way="given", key=key), sends=True)
        self.deliver()
        self.step(f'"command", station = {source}', sends=True)
        self.deliver(wanted=Wanted(ncc=ncc, way=way, key=key), sends=True)
        return self.deliver(wanted=Wanted(ncc=ncc, way="completed", key=key), sends=True)

    def switch_path(self, ncc: int, next_hop_key: bytes, *, answered: bool = True) -> int:
        """The newest Path Switch Request arrives, and its answer with this pair, and the release at the source; answers
        the answer's record."""
        answer = self.deliver(wanted=Wanted(ncc=ncc, way="chained", key=next_hop_key), sends=True)
        if answered:
            self.arrives(2)
        return answer

    def begin_s1(self, source: int, target: int, *, ncc: int | None = None, next_hop_key: bytes | None = None) -> int:
        """Handover Required, and the Handover Request where its pair is named; answers the record of the newer."""
        self.step(f'"s1", station = {source}, cell = {list(CELLS[target])}', sends=True)
        if next_hop_key is not None:
            self.deliver(wanted=Wanted(ncc=ncc, way="chained", key=next_hop_key), sends=True)
        return self.records - 1

    def over_s1(self, source: int, target: int, ncc: int, next_hop_key: bytes) -> bytes:
        """A whole handover over S1 with this pair; answers its key."""
        key = star(next_hop_key, target)
        self.begin_s1(source, target, ncc=ncc, next_hop_key=next_hop_key)
        self.deliver(wanted=Wanted(ncc=ncc, way="vertical", key=key), sends=True)
        self.arrives(2)
        self.step(f'"command", station = {source}', sends=True)
        self.deliver(wanted=Wanted(ncc=ncc, way="vertical", key=key), sends=True)
        self.deliver(wanted=Wanted(ncc=ncc, way="completed", key=key), sends=True)
        self.deliver()
        return key

    def within(self, station: int, ncc: int, key: bytes, way: str, *, meanwhile: int | None = None) -> None:
        """A handover within the station's cell. Where a record is named it arrives between the decision and the
        command's arrival."""
        self.step(f'"intra", station = {station}, cell = {list(CELLS[station])}', Wanted(ncc=ncc, way=way, key=key))
        command = self.step(f'"command", station = {station}', sends=True)
        if meanwhile is not None:
            self.deliver(meanwhile, sends=True)
        self.deliver(command, Wanted(ncc=ncc, way=way, key=key), sends=True)
        self.deliver(wanted=Wanted(ncc=ncc, way="completed", key=key))

    def complete_nas(self, ksi: int = 1) -> None:
        """A new KASME goes into use for NAS while the phone is connected; the core derives the KeNB of its Complete."""
        self.authenticate(ksi)
        self.command_nas()
        self.deliver(sends=True)
        self.deliver(wanted=Wanted(ncc=0, way="initial", key=kenb(KASMES[ksi], 0)), sends=True)

    def change_key(self, station: int, ksi: int = 1) -> bytes:
        """The UE Context Modification that follows `complete_nas`, and the change over the air; answers the key."""
        key = star(kenb(KASMES[ksi], 0), station)
        self.deliver(wanted=Wanted(ncc=0, key=key), sends=True)
        self.deliver(wanted=Wanted(ncc=0, key=key), sends=True)
        self.deliver(wanted=Wanted(ncc=0, key=key))
        return key

    def packet(self) -> None:
        """A user packet of the phone opens to what was sent."""
        self.step('"user", from = "phone", bearer = "drb1", text = "6869"', sends=True)
        self.deliver(wanted=Wanted(answer="done text=6869"))

    def text(self) -> str:
        """The scenario in TOML."""
        first_ncc, caps = self._head
        of_core = [f", core = {int(i == 1)}" if self.cores == 2 else "" for i in range(len(CELLS))]
        lists = [f", priority = {self.priorities[i]}" if i in self.priorities else "" for i in range(len(CELLS))]
        stations = "".join(
            f"  {{ id = {i}, cells = [{list(cell)}]{lists[i]}{of_core[i]} }},\n" for i, cell in enumerate(CELLS)
        )
        steps = "".join(f"  {step},\n" for step in self.steps)
        return (
            f'# {self.shows}\nphone = {{ caps = "{caps}" }}\ncore = {{ first_ncc = {first_ncc} }}\n'
            f"station = [\n{stations}]\nstep = [\n{steps}]\n"
        )

"""Which classes of values (`classes`) the inputs of a scenario are of, at each actor that reads them.

COUNTs are followed here by what goes and comes in the clear: sequence numbers, skips, and the air address, which is
another one with each connection.
"""
from __future__ import annotations

import collections
import pathlib
from collections.abc import Iterator

from lte_sec.drive import frames, network, records
from lte_sec.suite import visits

Class = tuple[str, str, str]  # an actor, a field, and a class of its values
Place = tuple[bytes, int]  # a cell, and the algorithm there
Counter = collections.defaultdict[tuple[object, ...], int]
BITS = [f"{kind}{number}" for kind in ("EEA", "EIA") for number in range(8)]


def load(file: pathlib.Path) -> list[Class]:
    """The classes of the file."""
    lines = [line.split(" | ") for line in file.read_text().splitlines() if line and not line.startswith("#")]
    return [(actor, field, each) for actor, field, classes in lines for each in classes.split(", ")]


def bits_of(caps: bytes) -> Iterator[str]:
    """Capabilities by each bit that is set, and each that is not."""
    number = int.from_bytes(caps, "big")
    yield from (name if number >> 15 - place & 1 else f"no {name}" for place, name in enumerate(BITS))
    if number == 0xFFFF:
        yield "all bits"


def beside(caps: bytes, own: bytes) -> Iterator[str]:
    """Capabilities by what differs from the phone's own."""
    changed = int.from_bytes(caps, "big") ^ int.from_bytes(own, "big")
    yield from (f"{name} alone" for place, name in enumerate(BITS) if changed == 0x8000 >> place)
    if caps == own:
        yield "own"
    if caps == b"\xff\xff":
        yield "all bits"


def above(name: str, number: int, most: int) -> str:
    return f"{name}above {most}" if number > most else f"{name}up to {most}"


class Seen:
    """What a scenario has shown so far: its classes, and of each actor what is needed to tell them."""

    def __init__(self, net: network.Network):
        self.net = net
        self.found: set[Class] = set()
        self.watches: dict[str, visits.Watch] = {}
        self.next: Counter = collections.defaultdict(
            int
        )  # COUNTs by actor, whether it comes or goes, and NAS or address and bearer
        self.ksi, self.caps = 0, b""  # of the last authentication
        self.link = b""  # the address of the phone's connection
        self.eea = self.ncc = self.trigger = 0  # of the phone's connection; the COUNT of the next KeNB
        self.orders: dict[bytes, Place] = {}  # commands to the phone, by their octets
        self.places: dict[str, Place] = {}  # where a station has the phone
        self.prepared: dict[tuple[str, bytes], Place] = {}  # and where it may come, by the air address
        self.targets: dict[str, Place] = {}  # where a station hands it over to

    def add(self, actor: str, field: str, *classes: object) -> None:
        self.found |= {(actor.split()[0], field, str(each)) for each in classes}

    def tell(self, told: network.Told, reply: frames.Reply) -> None:
        """What an actor is told, and the reply."""
        role = told.actor.split()[0]
        it = frames.read_input(role, False, told.body)
        watch = self.watches.setdefault(told.actor, visits.watch(role))
        if it.name == "Skip":
            self.skips(told.actor, watch, it)
        took = getattr(self, f"{role}_{it.name}", None)
        if took:
            took(told.actor, it, reply)
        watch.visit(it, reply, told.made_by)
        if reply.record is not None:
            self.goes(told.actor, it, reply, reply.record)

    def skips(self, actor: str, watch: visits.Watch, it: frames.Input) -> None:
        if it.fields["bearer"] == 0:
            place: object = "NAS"
        elif isinstance(watch, visits.StationWatch):
            place = (bytes([0, int(actor.split()[1])]) + network.number(watch.air or 0), it.fields["bearer"])
        else:
            place = (self.link, it.fields["bearer"])
        self.next[actor, "goes", place] += int(str(it.fields["n"]))

    def goes(self, actor: str, it: frames.Input, reply: frames.Reply, record: bytes) -> None:
        """A record that an actor sends."""
        if reply.to[0] in (1, 2):
            if record[0] != 0x07:
                self.sent_nas(actor, it, record)
        elif reply.to[0] in (0, 4):
            self.sent_air(actor, reply, record)
        else:
            self.record(actor, record, "goes")

    def sent_nas(self, actor: str, it: frames.Input, record: bytes) -> None:
        if record[0] in (0x37, 0x47):  # a command or its Complete: the COUNT of a new context
            self.next[actor, "goes", "NAS"] = record[5]
        count = self.next[actor, "goes", "NAS"]
        self.add(actor, "COUNT of a NAS message that goes", count)
        if it.name == "ServiceRequest":
            self.add(actor, "COUNT of a Service Request", count, *["above 65535"] * (count > 65535))
        self.next[actor, "goes", "NAS"] = count + 1

    def sent_air(self, actor: str, reply: frames.Reply, record: bytes) -> None:
        bearer = reply.to[6]
        key = actor, "goes", (reply.to[:6], bearer)
        self.add(
            actor, f"COUNT of {'an RRC message' if bearer in frames.SRBS else 'a packet'} that goes", self.next[key]
        )
        self.add(actor, "bearer that goes", frames.BEARERS[bearer])
        self.next[key] += 1
        if reply.to[0] == 4:
            self.link = reply.to[:6]

    def comes_air(self, actor: str, it: frames.Input, reply: frames.Reply, address: bytes) -> None:
        """A PDU that is taken on a bearer."""
        pdu, bearer = visits.octets_of(it), int(str(it.fields["bearer"]))
        if reply.answer != 0:
            return
        size, number = (32, pdu[0] % 32) if bearer in frames.SRBS else (4096, int.from_bytes(pdu[:2], "big") % 4096)
        key = actor, "comes", (address, bearer)
        count = self.next[key] + (number - self.next[key]) % size
        self.add(actor, f"COUNT of {'an RRC message' if bearer in frames.SRBS else 'a packet'} that comes", count)
        self.add(actor, "bearer that comes", frames.BEARERS[bearer])
        self.text(actor, reply)
        self.next[key] = count + 1

    def comes_nas(self, actor: str, pdu: bytes) -> int:
        """A NAS message that is taken; its COUNT."""
        key = actor, "comes", "NAS"
        count = pdu[5] if pdu[0] in (0x37, 0x47) else self.next[key] + (pdu[5] - self.next[key]) % 256
        self.add(actor, "COUNT of a NAS message that comes", count)
        self.next[key] = count + 1
        return count

    def text(self, actor: str, reply: frames.Reply) -> None:
        if reply.text is not None:
            self.add(actor, "length of a text", above("", len(reply.text), 16))

    def cell(self, actor: str, cell: bytes) -> None:
        self.add(actor, "PCI", above("", int.from_bytes(cell[:2], "big"), 255))
        self.add(actor, "EARFCN-DL", above("", int.from_bytes(cell[2:], "big"), 65535))

    def chosen(self, actor: str, eea: int) -> None:
        """The algorithm that the core or a station chooses of its list."""
        tables = [
            self.net.setup.get("core", {}),
            *(each for each in self.net.setup["station"] if actor == f"station {each['id']}"),
        ]
        self.add(
            actor,
            "algorithms",
            " ".join([f"EEA{eea} of", *map(str, tables[-1 if actor != "core" else 0].get("priority", [2, 0]))]),
        )

    def record(self, actor: str, octets: bytes, way: str) -> dict[str, bytes]:
        """The fields of a record on S1 or X2."""
        place, fields = 1, {}
        for name, width in (records.S1 | records.X2)[octets[0]][1]:
            fields[name] = octets[place : place + width]
            place += width
        if "NCC" in fields:
            self.add(actor, f"NCC that {way}", fields["NCC"][0])
        if "cell" in fields:
            self.cell(actor, fields["cell"])
        return fields

    # The phone

    def phone_Auth(self, actor: str, it: frames.Input, reply: frames.Reply) -> None:
        self.ksi = int(str(it.fields["ksi"]))
        self.add(actor, "KSI of an authentication", self.ksi)

    def phone_Nas(self, actor: str, it: frames.Input, reply: frames.Reply) -> None:
        pdu = visits.octets_of(it)
        if pdu[:1] == b"\x37" and pdu[6:7] == b"\1" and len(pdu) == 11:
            self.add(actor, "KSI of a Security Mode Command", pdu[7], f"wrong by {pdu[7] ^ self.ksi}")
            if visits.answer_of(reply) in ("done", "CapsMismatch"):
                self.add(
                    actor,
                    "capabilities of a Security Mode Command",
                    *beside(pdu[9:], bytes.fromhex(self.net.setup["phone"]["caps"])),
                )
        if reply.answer == 0:
            self.comes_nas(actor, pdu)
            self.text(actor, reply)
            if pdu[0] == 0x37:
                self.add(actor, "NAS algorithms", f"EEA{pdu[8] >> 4}")

    def phone_Air(self, actor: str, it: frames.Input, reply: frames.Reply) -> None:
        pdu, air = visits.octets_of(it), int(str(it.fields["air"]))
        address = bytes([4, int(str(it.fields["station"]))]) + network.number(air)
        if self.link:
            self.add(
                actor,
                "air address",
                *by_address(air, int.from_bytes(self.link[2:], "big")),
                *["of another station"] * (address[1:2] != self.link[1:2]),
            )
        self.comes_air(actor, it, reply, address)
        if reply.note and pdu in self.orders:
            cell, eea = self.orders[pdu]
            self.cell(actor, cell)
            self.add(actor, "algorithms of a handover", f"EEA{self.eea} to EEA{eea}")
            self.eea = eea
            self.chained(actor, reply)
        elif reply.note:
            self.eea, self.ncc = pdu[2] >> 4, 0

    def chained(self, actor: str, reply: frames.Reply) -> None:
        """The NCC of a handover or of a key change."""
        assert reply.note
        if frames.WAYS[reply.note.way] != "initial":
            self.add(actor, "NCC", f"up by {max(0, len(reply.derived) - 4)}", *["past 7"] * (reply.note.ncc < self.ncc))
        self.ncc = reply.note.ncc

    # Stations

    def station_S1(self, actor: str, it: frames.Input, reply: frames.Reply) -> None:
        if visits.answer_of(reply) in ("BadRecord", "WrongKind"):
            return
        octets = visits.octets_of(it)
        fields = self.record(actor, octets, "comes")
        if "capabilities" in fields:
            self.add(actor, "capabilities", *bits_of(fields["capabilities"]))
        if reply.answer == 0:
            self.taken(actor, octets[0], fields, reply)

    station_X2 = station_S1

    def taken(self, actor: str, kind: int, fields: dict[str, bytes], reply: frames.Reply) -> None:
        """A record on S1 or X2 that a station is done with."""
        if kind in (0x20, 0x25, 0x30):
            assert reply.record
            eea = reply.record[2 if kind == 0x20 else -5] >> 4
            self.chosen(actor, eea)
            if kind == 0x20:
                self.places[actor] = fields["cell"], eea
            else:
                self.prepared[actor, reply.record[-4:]] = fields["cell"], eea
        elif kind in (0x27, 0x31):
            eea = fields["algorithms"][0] >> 4
            self.targets[actor] = self.targets[actor][0], eea
            self.add(actor, "algorithms of a handover", f"EEA{self.places[actor][1]} to EEA{eea}")
        elif kind == 0x34 and reply.record:
            self.targets[actor] = self.orders[reply.record] = self.places[actor]

    def station_Air(self, actor: str, it: frames.Input, reply: frames.Reply) -> None:
        watch, air = self.watches[actor], int(str(it.fields["air"]))
        assert isinstance(watch, visits.StationWatch)
        if watch.air is not None:
            self.add(actor, "air address", *by_address(air, watch.air))
        place = network.number(air)
        self.comes_air(actor, it, reply, bytes([0, int(actor.split()[1])]) + place)
        if reply.note:
            self.places[actor] = self.prepared.get((actor, place), self.targets.get(actor, (b"", 0)))

    def station_Start(self, actor: str, it: frames.Input, reply: frames.Reply) -> None:
        if reply.answer == 0:
            self.targets[actor] = network.cell_of(it.fields["cell"]), self.places[actor][1]  # type: ignore[arg-type]
            self.cell(actor, self.targets[actor][0])

    def station_Command(self, actor: str, it: frames.Input, reply: frames.Reply) -> None:
        if reply.record:
            self.orders[reply.record] = self.targets[actor]

    # The core

    def core_Auth(self, actor: str, it: frames.Input, reply: frames.Reply) -> None:
        caps = it.fields["caps"]
        assert isinstance(caps, bytes)
        self.caps = caps
        self.add(actor, "KSI of an authentication", it.fields["ksi"])
        self.add(actor, "capabilities", *bits_of(caps))

    def core_StartSmc(self, actor: str, it: frames.Input, reply: frames.Reply) -> None:
        if reply.record:
            self.chosen(actor, reply.record[8] >> 4)

    def core_Nas(self, actor: str, it: frames.Input, reply: frames.Reply) -> None:
        pdu = visits.octets_of(it)
        if reply.answer == 0 and pdu[0] != 0x07:
            count = self.comes_nas(actor, pdu)
            self.text(actor, reply)
            if pdu[0] == 0x47 or pdu[0] == 0x17 and pdu[6:7] == b"\4":
                self.trigger = count
            if reply.note:
                self.kenb(actor)

    def kenb(self, actor: str) -> None:
        self.add(actor, "COUNT of KeNB", self.trigger, *["above 65535"] * (self.trigger > 65535))

    def core_Connect(self, actor: str, it: frames.Input, reply: frames.Reply) -> None:
        if reply.note:
            self.kenb(actor)

    def core_S1(self, actor: str, it: frames.Input, reply: frames.Reply) -> None:
        octets = visits.octets_of(it)
        if reply.answer == 0:
            fields = self.record(actor, octets, "comes")
            if octets[0] == 0x22:
                self.add(actor, "capabilities of a Path Switch Request", *beside(fields["capabilities"], self.caps))


def by_address(air: int, own: int) -> Iterator[str]:
    """An air address beside the one in use."""
    yield "own" if air == own else "below" if air < own else "above"
    if air == own + 65536:
        yield "65536 above"

"""Networks that are written out message by message: conformant ones (`sound_*`) and such with one fault (`broken_*`).

Nothing keeps the standard by itself here, as it does in `simulated`: each network says which key it sends, so that this
is one more reading of the standard. A network is a function; its name says what it shows.
"""
from __future__ import annotations

from collections.abc import Callable

from lte_sec.captures.cells import Site
from lte_sec.captures.decoding import Command, Message

from .nas_messages import (
    ATTACH,
    ATTACHED,
    AUTHENTICATED,
    DOWN,
    INFORMATION,
    UP,
    UPLINK,
    Context,
    accept,
    authentication,
)
from .simulated import CALLS, CELLS

ENB1, ENB2, ENB2_SECOND, ENB3, _ = (site.eci for site in CELLS)
HOME1, HOME2, GATEWAY = 0x2000001, 0x3000001, 9  # home stations, and the end of S1 that is before them
SITES = [*CELLS, Site(HOME1, 40, 500, 18500, "home1"), Site(HOME2, 41, 500, 18500, "home2")]
CELL = {site.eci: (site.pci, site.earfcn) for site in SITES}
STATION = {ENB1: 1, ENB2: 2, ENB2_SECOND: 2, ENB3: 3}
FIRST = {1: ENB1, 2: ENB2, 3: ENB3}  # the first cell of a station
END = {number: f"10.0.0.1{number}:36412" for number in (1, 2, 3, GATEWAY)}
HOME_END = {1: "10.0.1.1:36422", 2: "10.0.1.2:36422"}
CORE, CORE_2 = "10.0.0.1:36412", "10.0.0.2:36412"


class Network:
    """The messages of a network. `faults` is the frame where the fault is, and none where several frames may tell
    it."""

    def __init__(self) -> None:
        self.messages: list[Message] = []
        self.contexts: list[Context] = []
        self.faults: list[str] = []

    def of(self, *contexts: Context) -> Network:
        """The network, to be judged with the KASMEs of these."""
        self.contexts = list(contexts)
        return self

    def fault_in(self, more: int) -> None:
        """The fault is in the message that comes after so many more; 0 is the last one."""
        self.faults = [str(len(self.messages) + more)]

    # -- messages

    def add(self, link: str, name: str, source: str, target: str, **fields: object) -> Message:
        at = len(self.messages) + 1
        self.messages.append(Message(str(at), float(at), link, name, source, target, **fields))  # type: ignore[arg-type]
        return self.messages[-1]

    def up(
        self, name: str, station: int, enb: int, mme: int | None, *nas: bytes, core: str = CORE, **fields: object
    ) -> Message:
        return self.add("S1", name, END[station], core, enb_id=enb, mme_id=mme, nas=list(nas), **fields)

    def down(
        self, name: str, station: int, enb: int, mme: int | None, *nas: bytes, core: str = CORE, **fields: object
    ) -> Message:
        return self.add("S1", name, core, END[station], enb_id=enb, mme_id=mme, nas=list(nas), **fields)

    def x2(self, name: str, source: int, target: int, **fields: object) -> Message:
        return self.add("X2", name, END[source], END[target], **fields)

    # -- NAS

    def uplink(
        self,
        phone: Context,
        station: int = 1,
        enb: int = 1,
        mme: int = 101,
        plain: bytes = UPLINK,
        header: int = 2,
        eci: int | None = None,
        core: str = CORE,
        **how: object,
    ) -> Message:
        sealed = phone.seal(UP, header, plain, **how)  # type: ignore[arg-type]
        return self.up("UplinkNASTransport", station, enb, mme, sealed, eci=eci or FIRST[station], core=core)

    def downlink(
        self,
        phone: Context,
        station: int = 1,
        enb: int = 1,
        mme: int = 101,
        plain: bytes = INFORMATION,
        header: int = 2,
        core: str = CORE,
        **how: object,
    ) -> Message:
        sealed = phone.seal(DOWN, header, plain, **how)  # type: ignore[arg-type]
        return self.down("DownlinkNASTransport", station, enb, mme, sealed, core=core)

    def security_mode(self, phone: Context, station: int = 1, enb: int = 1, mme: int = 101, core: str = CORE) -> None:
        self.down("DownlinkNASTransport", station, enb, mme, phone.command(), core=core)
        self.up("UplinkNASTransport", station, enb, mme, phone.complete(), eci=FIRST[station], core=core)

    def authenticate(
        self, before: Context | None, ksi: int, station: int = 1, enb: int = 1, mme: int = 101, core: str = CORE
    ) -> None:
        """An authentication, in the open or under the context before."""
        request = before.seal(DOWN, 2, authentication(ksi)) if before else authentication(ksi)
        self.down("DownlinkNASTransport", station, enb, mme, request, core=core)
        response = before.seal(UP, 2, AUTHENTICATED) if before else AUTHENTICATED
        self.up("UplinkNASTransport", station, enb, mme, response, eci=FIRST[station], core=core)

    # -- connections

    def attach(
        self,
        phone: Context,
        station: int = 1,
        enb: int = 1,
        mme: int = 101,
        eci: int | None = None,
        tmsi: int = 1,
        first: bytes = ATTACH,
        core: str = CORE,
    ) -> bytes:
        """An attach with an authentication, to its end; its KeNB."""
        eci = eci or FIRST[station]
        self.up("InitialUEMessage", station, enb, None, first, eci=eci, core=core)
        self.down("DownlinkNASTransport", station, enb, mme, authentication(phone.ksi), core=core)
        self.up("UplinkNASTransport", station, enb, mme, AUTHENTICATED, eci=eci, core=core)
        self.down("DownlinkNASTransport", station, enb, mme, phone.command(), core=core)
        self.up("UplinkNASTransport", station, enb, mme, phone.complete(), eci=eci, core=core)
        kenb = phone.kenb(phone.counts[UP] - 1)
        self.down(
            "InitialContextSetupRequest", station, enb, mme, phone.seal(DOWN, 2, accept(tmsi)), key=kenb, core=core
        )
        self.up("InitialContextSetupResponse", station, enb, mme, core=core)
        self.up("UplinkNASTransport", station, enb, mme, phone.seal(UP, 2, ATTACHED), eci=eci, core=core)
        return kenb

    def service(
        self,
        phone: Context,
        station: int = 1,
        enb: int = 2,
        mme: int = 102,
        tmsi: int = 1,
        key: bytes | None = None,
        core: str = CORE,
        request: bytes | None = None,
    ) -> bytes:
        """A Service Request and the setup that answers it; its KeNB, or this key."""
        kenb = key or phone.kenb(phone.counts[UP])
        self.up(
            "InitialUEMessage", station, enb, None, request or phone.request(), eci=FIRST[station], tmsi=tmsi, core=core
        )
        self.down("InitialContextSetupRequest", station, enb, mme, key=kenb, core=core)
        self.up("InitialContextSetupResponse", station, enb, mme, core=core)
        return kenb

    def release(self, station: int, enb: int, mme: int, core: str = CORE) -> None:
        self.down("UEContextReleaseCommand", station, enb, mme, core=core)
        self.up("UEContextReleaseComplete", station, enb, mme, core=core)

    def change_key(self, kenb: bytes, station: int = 1, enb: int = 1, mme: int = 101, taken: bool = True) -> None:
        self.down("UEContextModificationRequest", station, enb, mme, key=kenb)
        self.up("UEContextModificationResponse" if taken else "UEContextModificationFailure", station, enb, mme)

    # -- handovers

    def prepare(
        self, x2: int, mme: int, source: int, target: int, key: bytes, ncc: int, told: Command | None = None
    ) -> None:
        """A handover over X2 that is asked for and answered."""
        ends = STATION[source], STATION[target]
        self.x2("HandoverRequest", *ends, old_x2=x2, mme_id=mme, key=key, ncc=ncc, eci=target, source_eci=source)
        at = len(self.messages)
        told = told or Command(ncc, *CELL[target], False, b"o%d" % at)
        self.x2(
            "HandoverRequestAcknowledge", *ends[::-1], old_x2=x2, new_x2=x2 + 100, container=b"c%d" % at, command=told
        )

    def switch(
        self, x2: int, enb: int, mme: int, source: int, target: int, nh: bytes | None = None, ncc: int | None = None
    ) -> None:
        """The phone comes to the target: a path switch, its answer unless that fails, and the release at the source."""
        ends = STATION[source], STATION[target]
        self.up("PathSwitchRequest", ends[1], enb, mme, eci=target)
        if nh is not None:
            self.down("PathSwitchRequestAcknowledge", ends[1], enb, mme, nh=nh, ncc=ncc)
        self.x2("UEContextRelease", *ends[::-1], old_x2=x2, new_x2=x2 + 100)

    def x2_handover(
        self,
        x2: int,
        enb: int,
        mme: int,
        target: int,
        key: bytes,
        ncc: int,
        source: int,
        nh: bytes | None = None,
        nh_ncc: int | None = None,
        told: Command | None = None,
    ) -> None:
        self.prepare(x2, mme, source, target, key, ncc, told)
        self.switch(x2, enb, mme, source, target, nh, nh_ncc)

    def s1_handover(
        self,
        enb: int,
        mme: int,
        target: int,
        source: int,
        nh: bytes,
        ncc: int,
        new_enb: int,
        new_mme: int,
        told: Command | None = None,
        notified: bool = True,
        gateway: int = 0,
    ) -> None:
        here, there = gateway or STATION[source], gateway or STATION[target]
        box, back = b"box %d" % len(self.messages), b"back %d" % len(self.messages)
        told = told or Command(ncc, *CELL[target], False, back)
        self.up("HandoverRequired", here, enb, mme, container=box, eci=target)
        self.add(
            "S1",
            "HandoverRequest",
            CORE,
            END[there],
            mme_id=new_mme,
            nh=nh,
            ncc=ncc,
            container=box,
            eci=target,
            source_eci=source,
        )
        self.add(
            "S1",
            "HandoverRequestAcknowledge",
            END[there],
            CORE,
            enb_id=new_enb,
            mme_id=new_mme,
            container=back,
            command=told,
        )
        self.down("HandoverCommand", here, enb, mme, container=back, command=told)
        if notified:
            self.up("HandoverNotify", there, new_enb, new_mme, eci=target)
            self.release(here, enb, mme)


Made = Callable[[], Network]


def attached(phone: Context | None = None, **how: object) -> tuple[Network, Context, bytes]:
    """A network with one phone, the phone, and its KeNB."""
    network, phone = Network(), phone or Context("a")
    kenb = network.attach(phone, **how)  # type: ignore[arg-type]
    return network.of(phone), phone, kenb


def chain(kenb: bytes, phone: Context, number: int) -> bytes:
    """NH of a number (TS 33.401 A.4)."""
    for _ in range(number):
        kenb = CALLS.nh(phone.kasme, kenb)
    return kenb


def star(key: bytes, eci: int) -> bytes:
    """KeNB* for a cell (A.5)."""
    return CALLS.kenb_star(key, *CELL[eci])


SOUND: dict[str, tuple[Made, bool]] = {}  # with whether all of it is judged
BROKEN: dict[str, tuple[Made, str]] = {}  # with what a line says of the fault


def sound(all_judged: bool = True) -> Callable[[Made], Made]:
    """A network that keeps the standard."""

    def register(made: Made) -> Made:
        SOUND[made.__name__.replace("_", " ")] = made, all_judged
        return made

    return register


def broken(text: str) -> Callable[[Made], Made]:
    """A network with a fault, and the expression for the line that tells it."""

    def register(made: Made) -> Made:
        BROKEN[made.__name__.replace("_", " ")] = made, text
        return made

    return register

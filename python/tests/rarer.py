"""Phones, stations and cores in situations that a plain trace does not show: refreshes, suspension, a pool of cores,
plain messages."""
from __future__ import annotations

from dataclasses import replace

from lte_sec.captures.decoding import Command, Message, Reestablishment

from .simulated import CALLS, ENDS, Phone, Side, World, cell_of

ATTACH_REQUEST = bytes.fromhex("07417108091010000000001002f0700004")
ABLE = (7, 7)  # EEA1 to 3, EIA1 to 3, as the Attach Request and the Security Mode Command of `World` have them


def short_mac(kenb: bytes, eci: int, pci: int, rnti: bytes) -> bytes:
    """shortMAC-I (TS 36.331 5.3.7.4)."""
    text = "{:028b}{:09b}{:016b}000".format(eci, pci, int.from_bytes(rnti, "big"))
    return CALLS.eia2(CALLS.algorithm_key(kenb, 4, 2)[16:], 0xFFFFFFFF, 31, 1, int(text, 2).to_bytes(7, "big"))[2:]


class RarerWorld(World):
    """A world with more that may happen."""

    # -- what S1 and X2 do not show

    def refresh(self, phone: Phone, eci: int | None = None) -> None:
        """A re-establishment or a handover within the station: both make KeNB* for the cell."""
        site = cell_of(eci or phone.eci)
        side = phone.stations[site.station]
        base, number = side.pair or (side.key, side.ncc)
        phone.own = self.command(phone, number, site.pci, site.earfcn)
        phone.stations[site.station] = Side(CALLS.kenb_star(base, site.pci, site.earfcn), number)
        assert phone.own.key == phone.stations[site.station].key
        phone.eci = site.eci

    def elsewhere(self, phone: Phone, prepared: int, came: int, then: int, keeps: bool = False) -> Message:
        """A handover over X2 for one cell; the phone re-establishes in another of the target, and goes on to a third.

        `keeps`: the target goes on with the key of the prepared cell.
        """
        source, site = cell_of(phone.eci), cell_of(came)
        side = phone.stations[source.station]
        base, number = side.pair or (side.key, side.ncc)
        before = replace(phone.own)
        self.x2(phone, prepared, switch=False)
        del self.messages[-1]  # it is not cancelled
        phone.own = before
        phone.own, phone.eci, phone.enb_id = self.command(phone, number, site.pci, site.earfcn), came, self.fresh()
        was = cell_of(prepared)
        kept = CALLS.kenb_star(base, was.pci, was.earfcn)
        phone.stations[site.station] = Side(kept if keeps else CALLS.kenb_star(base, site.pci, site.earfcn), number)
        self.switch(phone, answered=False)
        self.messages[-1].eci = came
        asked = self.x2(phone, then)
        if keeps:
            self.fault(asked)
        return asked

    # -- suspension (TS 33.401 7.2.11)

    def suspend(self, phone: Phone, with_nh: bool = True, steps: int = 0) -> Message:
        self.up(phone, "UEContextSuspendRequest", mme_id=phone.mme_id, eci=None)
        return self.stepped(phone, "UEContextSuspendResponse", with_nh, steps)

    def resume(self, phone: Phone, with_nh: bool = True, eci: int | None = None) -> Message:
        self.up(phone, "UEContextResumeRequest", mme_id=phone.mme_id, eci=None)
        self.refresh(phone, eci)
        return self.stepped(phone, "UEContextResumeResponse", with_nh, 0)

    def stepped(self, phone: Phone, name: str, with_nh: bool, steps: int) -> Message:
        if not with_nh:
            return self.down(phone, name)
        usual = self.first if phone.core_number == 0 else 1
        key, ncc = self.step(phone, steps)
        phone.stations[cell_of(phone.eci).station].pair = (key, ncc)
        message = self.down(phone, name, nh=key, ncc=ncc)
        return self.fault(message) if steps not in (0, usual) else message

    def resume_at(self, phone: Phone, eci: int, key: bytes | None = None) -> Message:
        """A suspended phone comes back at another station, which fetches its context over X2 (TS 36.423 8.3.13)."""
        source, target = cell_of(phone.eci), cell_of(eci)
        side = phone.stations[source.station]
        base, number = side.pair or (side.key, side.ncc)
        self.x2_ids += 1
        ends = ENDS[target.station], ENDS[source.station]
        right = CALLS.kenb_star(base, target.pci, target.earfcn)
        self.add("X2", "RetrieveUEContextRequest", *ends, new_x2=self.x2_ids, eci=eci)
        answer = self.add(
            "X2",
            "RetrieveUEContextResponse",
            *reversed(ends),
            new_x2=self.x2_ids,
            mme_id=phone.mme_id,
            key=key or right,
            ncc=number,
        )
        phone.own = self.command(phone, number, target.pci, target.earfcn)
        if key is not None:
            self.apart.append(self.fault(answer).frame)
        phone.eci, phone.enb_id = eci, self.fresh()
        phone.stations[target.station] = Side(key or right, number)
        self.switch(phone)
        return answer

    # -- NAS

    def plain_down(self, phone: Phone, text: str) -> Message:
        return self.down(phone, "DownlinkNASTransport", nas=[bytes.fromhex(text)])

    def plain_up(self, phone: Phone, text: str) -> Message:
        return self.up(phone, "UplinkNASTransport", mme_id=phone.mme_id, nas=[bytes.fromhex(text)])

    def tracking(self, phone: Phone, eci: int) -> None:
        """A Tracking Area Update over a connection of its own, without KeNB."""
        phone.eci, phone.enb_id, phone.mme_id = eci, self.fresh(), self.fresh()
        text = bytes([7, 0x48, phone.ksi << 4]) + bytes.fromhex("0bf600f110800101") + phone.tmsi.to_bytes(4, "big")
        self.up(phone, "InitialUEMessage", nas=[self.seal(phone, 0, 1, text)], tmsi=phone.tmsi)
        self.nas_down(phone, bytes.fromhex("07490049") + bytes(4))

    def rerouted(self, phone: Phone, other: str) -> None:
        """The last Service Request goes to another core of the pool (TS 36.413 8.6.2.5), which sends the KeNB."""
        asked = next(one for one in reversed(self.messages) if one.name == "InitialUEMessage")
        setup = next(
            place for place, one in reversed(list(enumerate(self.messages))) if one.name == "InitialContextSetupRequest"
        )
        behind = self.messages[setup:]
        del self.messages[setup:]
        self.add("S1", "RerouteNASRequest", self.core, asked.source, enb_id=asked.enb_id)
        again = replace(asked, frame=str(len(self.messages) + 1), time=float(len(self.messages) + 1), target=other)
        self.messages.append(again)
        for one in behind:
            moved = replace(one, frame=str(len(self.messages) + 1), time=float(len(self.messages) + 1))
            moved.source, moved.target = (other if end == self.core else end for end in (one.source, one.target))
            self.messages.append(moved)
        self.core = other

    # -- RRC contexts

    def prepares(
        self,
        asked: Message,
        phone_key: bytes,
        base: bytes,
        cells: list[int],
        key: bytes | None = None,
        mac: bytes | None = None,
    ) -> None:
        """Puts cells for re-establishment into a Handover Request; `key` and `mac` are planted in the first."""
        asked.rnti = b"\x46\x01"
        source = cell_of(asked.source_eci or 0)
        for place, eci in enumerate(cells):
            site = cell_of(eci)
            right = CALLS.kenb_star(base, site.pci, site.earfcn), short_mac(phone_key, eci, source.pci, asked.rnti)
            asked.reestablishment.append(
                Reestablishment(
                    eci, key or right[0] if not place else right[0], mac or right[1] if not place else right[1]
                )
            )

    def able(self, able: tuple[int, int] = ABLE) -> None:
        """The capabilities in each message of S1 and X2 that has them."""
        for message in self.messages:
            carries = (
                message.name in ("InitialContextSetupRequest", "PathSwitchRequest") or message.name == "HandoverRequest"
            )
            message.capabilities = able if carries else None

    def undecodable(self, message: Message) -> None:
        command = message.command
        assert command is not None
        message.command = Command(None, command.pci, command.earfcn, False, command.octets)

"""The command of a handover, and whether phone and target have one key by it."""
from __future__ import annotations

from dataclasses import replace

from ..captures.cells import RANGES, Cell, is_cell
from ..captures.decoding import Command, Message, title
from ..common.causes import Cause, Reason, Why
from ..common.report import DIFFERS, RIGHT, UNKNOWN, Line, unknown_line
from ..common.terms import Key
from .histories import Held, History, PhoneKeys, renewed
from .preparation import PreparedJudge
from .state import Attempt, Connection, Given

ALGORITHMS = ("ciphering", "integrity")


class AgreementJudge(PreparedJudge):
    """Judges commands, the capabilities that messages hand on, and agreement too."""

    # -- capabilities of the phone

    def capabilities(self, message: Message, wanted: list[tuple[int, int] | None], sure: bool = True) -> None:
        """Compares the security capabilities of a message with those that its sender had (TS 33.401 7.2.4.2.2,
        7.2.4.4)."""
        found, known = message.capabilities, [one for one in wanted if one is not None]
        if found is None or not known or found in known:
            return
        parts = [
            f"{name} {is_:03b}, wanted {due:03b}" for name, is_, due in zip(ALGORITHMS, found, known[0]) if is_ != due
        ]
        if not sure:
            self.lines.append(
                unknown_line(
                    message.frame,
                    title(message),
                    "capabilities",
                    Cause.CAPABILITIES_EARLIER.because(parts="; ".join(parts)),
                )
            )
            return
        is_handed_on = message.link == "X2" or message.name == "PathSwitchRequest"
        said = (Cause.CAPABILITIES_HANDED_ON if is_handed_on else Cause.CAPABILITIES_TOLD).because(
            why=Cause.CAPABILITIES_ARE.because(parts="; ".join(parts))
        )
        bits, due = (f"{of[0]:03b} {of[1]:03b}" for of in (found, known[0]))
        self.lines.append(
            Line(message.frame, title(message), "capabilities", DIFFERS, said, found=bits, wanted=due, wanted_hex=due)
        )

    # -- the command, and what the phone takes

    def command(self, connection: Connection, attempt: Attempt, message: Message, told: Command) -> None:
        """Compares a handover command with what the target was given, and takes the phone's step."""
        attempt.command = told
        ncc = told.ncc if told.ncc is not None else attempt.nccs[0]
        source = self.cell(connection.eci)
        earfcn = told.earfcn if told.earfcn is not None else (source[1] if source else None)
        cell = (told.pci, earfcn) if told.pci is not None and earfcn is not None else attempt.cell
        is_none = cell is not None and not is_cell(*cell)
        if attempt.cell is None and not is_none:
            self.target_keys(attempt, cell)
        faults = (
            [Cause.COMMAND_NCC.of(found=ncc, wanted=attempt.nccs[0])]
            if ncc not in attempt.nccs and attempt.nccs
            else []
        )
        other = cell is not None and attempt.cell is not None and cell != attempt.cell
        elsewhere = (
            other
            and attempt.kind == "S1"
            and cell in {(site.pci, site.earfcn) for site in self.cells.of(attempt.station)}
        )
        if other and not elsewhere and cell is not None and attempt.cell is not None:
            faults.append(
                Cause.COMMAND_CELL.of(
                    pci=cell[0], earfcn=cell[1], wanted_pci=attempt.cell[0], wanted_earfcn=attempt.cell[1]
                )
            )
        if is_none and cell is not None:
            faults.append(Cause.COMMAND_NO_CELL.of(pci=cell[0], earfcn=cell[1], ranges=RANGES))
        if told.key_change != attempt.change:
            faults.append(
                Cause.COMMAND_KEY_CHANGE.of(found=str(told.key_change).lower(), wanted=str(attempt.change).lower())
            )
        self.command_lines(attempt, message, told, faults, cell, elsewhere)
        attempt.heard = ncc, None if is_none else cell, told.key_change

    def command_lines(
        self,
        attempt: Attempt,
        message: Message,
        told: Command,
        faults: list[Reason],
        cell: Cell | None,
        elsewhere: bool,
    ) -> None:
        ncc, wanted = str(told.ncc), str(attempt.nccs[0]) if attempt.nccs else ""
        if faults:
            said = Cause.COMMAND_DIFFERS.because(why=tuple(faults))
            self.lines.append(
                Line(
                    message.frame,
                    title(message),
                    "command",
                    DIFFERS,
                    said,
                    found=ncc,
                    wanted=wanted,
                    wanted_hex=wanted,
                    cell=cell,
                )
            )
        elif told.ncc is None:
            self.lines.append(unknown_line(message.frame, title(message), "command", Cause.NCC_UNDECODED.because()))
        elif message.link == "RRC":
            said = (
                Cause.COMMAND_RIGHT_IN_CELL.because(ncc=told.ncc, pci=cell[0], earfcn=cell[1])
                if cell
                else Cause.COMMAND_RIGHT.because(ncc=told.ncc)
            )
            self.lines.append(
                Line(
                    message.frame,
                    title(message),
                    "command",
                    RIGHT,
                    said,
                    found=ncc,
                    wanted=ncc,
                    wanted_hex=ncc,
                    cell=cell,
                )
            )
        if elsewhere and cell is not None:
            attempt.doubt = Cause.OTHER_CELL_ANSWERED.because(pci=cell[0], earfcn=cell[1])
            self.lines.append(unknown_line(message.frame, title(message), "cell of the command", attempt.doubt))

    def target_keys(self, attempt: Attempt, cell: Cell | None) -> None:
        """What the target of a handover over S1 makes of NH and NCC for its cell."""
        attempt.cell = cell
        if cell is not None and not attempt.given:
            attempt.given = [Given(Held(self.derivations.star(pair.key, *cell), pair.ncc)) for pair in attempt.pairs]

    def undecoded(self, connection: Connection, attempt: Attempt, message: Message, why: Why) -> None:
        """A command that does not decode: it is taken to tell what the target was given, and not judged."""
        self.lines.append(unknown_line(message.frame, title(message), "command", why))
        attempt.doubt = attempt.doubt or Cause.COMMAND_UNDECODED.because()
        self.agreement(connection, attempt)

    def phone_behind(self, connection: Connection, one: History, attempt: Attempt, held: Held) -> PhoneKeys | None:
        """What the phone of a history has behind a handover: it takes what its command said, or else what the target
        was given."""
        ncc, cell, key_change = attempt.heard or (held.ncc, attempt.cell, False)
        kenbs = self.wanted_kenbs(connection) if key_change else []
        if one.phone is None or cell is None:
            return one.phone and one.phone.away()
        made = renewed(self.derivations, kenbs[0], cell) if kenbs else one.phone.takes(self.derivations, ncc, cell)
        return replace(made, lost=False) if made.lost and made.key.value == held.key.value else made

    def agreement(self, connection: Connection, attempt: Attempt, taken: PhoneKeys | None = None) -> None:
        """The line that says whether phone and target have one key: what was sent to the target, and what the phone
        takes, of any history; `taken` is what it takes at a key change."""
        if attempt.told or not attempt.given:
            return
        attempt.told = True
        sent = attempt.given[0].held
        phones = (
            [taken]
            if attempt.kind == "change"
            else [self.phone_behind(connection, one, attempt, sent) for one in connection.histories]
        )
        unsure = next(
            (one for one in phones if one is None or one.lost), phones[0]
        )  # a phone that is not known may have the station's key
        phone = next((one for one in phones if one is not None and one.key.value == sent.key.value), unsure)
        move = {"change": "key change within", "within": "handover within"}.get(attempt.kind, "handover to")
        agree = phone is not None and phone.key.value == sent.key.value
        if phone is None or attempt.doubt or phone.lost and not agree:
            said = (Cause.AGREEMENT_IN_DOUBT if attempt.doubt else Cause.AGREEMENT_NOT_JUDGED).because(
                move=move, station=attempt.station, why=attempt.doubt
            )
            self.agrees(
                Line(
                    attempt.frame,
                    "handover",
                    "agreement",
                    UNKNOWN,
                    said,
                    remarks=attempt.doubt,
                    subject="",
                    cell=attempt.cell,
                ),
                sent.key,
            )
        elif agree:
            said = Cause.AGREE.because(move=move, station=attempt.station, key=self.show(sent.key))
            self.agrees(
                Line(attempt.frame, "handover", "agreement", RIGHT, said, subject="", cell=attempt.cell),
                sent.key,
                phone.key,
            )
            connection.parted = False
        else:
            self.apart(connection, attempt.frame, attempt.station, phone.key, sent.key, attempt.cell)

    def apart(
        self,
        connection: Connection,
        frame: str,
        name: str,
        phone: Key,
        station: Key,
        cell: tuple[int, int] | None = None,
    ) -> None:
        held = self.derivations.form(station, phone) + self.derivations.whose(station)
        said = (Cause.STILL_APART if connection.parted else Cause.COME_APART).because(
            station=name, phone=self.show(phone, station), held=held
        )
        connection.parted = True
        self.agrees(Line(frame, "handover", "agreement", DIFFERS, said, subject="", cell=cell), station, phone)

    def agrees(self, line: Line, station: Key, phone: Key | None = None) -> None:
        """Adds a line on agreement, with octets, KeNB and KASME of the station's key and the octets of the phone's."""
        line.found, line.hex, line.base, line.key = station.form, station.value.hex(), station.base, station
        line.kasme = self.derivations.name(station.kasme)
        if phone is not None:
            line.wanted, line.wanted_hex, line.wanted_key = phone.form, phone.value.hex(), phone
        self.lines.append(line)

"""Cells that a source prepares for re-establishment: KeNB* and short MAC of each (TS 33.401 7.4.3, TS 36.331 10.3,
5.3.7.4)."""
from __future__ import annotations

from ..captures.cells import Cell
from ..captures.decoding import Message, Reestablishment, title
from ..common import mistakes
from ..common.causes import Cause
from ..common.report import DIFFERS, RIGHT, Line, unknown_line
from ..common.terms import COMPUTED, RRC_INTEGRITY, Key
from .stars import BASES, Made, StarJudge
from .state import Connection

ONES, BEARER_ONES, DIRECTION_ONE = (1 << 32) - 1, 31, 1  # COUNT, BEARER and DIRECTION of shortMAC-I (TS 36.331 5.3.7.4)


class PreparedJudge(StarJudge):
    """Judges cells for re-establishment too."""

    def prepared(self, connection: Connection, message: Message, made: Made | None) -> None:
        """KeNB* and short MAC of each cell that the source prepares for re-establishment (TS 33.401 7.4.3, TS 36.331
        10.3)."""
        for one in message.reestablishment:
            cell = self.cell(one.eci)
            name = f"for ({cell[0]},{cell[1]})" if cell else f"for ECI {one.eci:07x}"
            if cell is None or made is not None and (not made.bases or made.doubt):
                why = (Cause.CELL_UNKNOWN if cell is None else Cause.BASE_NOT_JUDGED).because()
                self.lines.extend(
                    unknown_line(message.frame, title(message), kind, why, of=name) for kind in ("KeNB*", "short MAC")
                )
                continue
            if made is not None:
                self.prepared_key(connection, message, one, made, cell, name)
            self.short_mac(connection, message, one, name)

    def prepared_key(
        self, connection: Connection, message: Message, one: Reestablishment, made: Made, cell: Cell, name: str
    ) -> None:
        wanted = [self.derivations.star(base.key, *cell) for base in made.bases]
        match = next((key for key in wanted if key.value == one.key), None)
        found = match or self.named(one.key, connection, [base.key for base in made.bases], cell)
        why = self.reason(
            found, lambda: (mistakes.star(found.value, base.key.value, *cell) for base in made.bases[:BASES])
        )
        self.judged(message, "KeNB*", found, match or wanted[0], why=why, cell=cell, of=name)

    def short_mac(self, connection: Connection, message: Message, one: Reestablishment, name: str) -> None:
        algorithms = message.algorithms or connection.algorithms
        source = self.cell(message.source_eci)
        pci = source[0] if source else message.source_pci
        keys = list(dict.fromkeys(held.key for held in connection.states() if held.key.value))
        why = None
        if algorithms is None or algorithms[1] not in COMPUTED:
            why = Cause.ALGORITHM_NOT_TOLD
        elif pci is None or message.rnti is None or not keys:
            why = Cause.INPUTS_UNKNOWN
        if why or pci is None or message.rnti is None or algorithms is None:
            self.lines.append(
                unknown_line(
                    message.frame, title(message), "short MAC", (why or Cause.INPUTS_UNKNOWN).because(), of=name
                )
            )
            return
        macs = [self.computed_short_mac(key, algorithms[1], one.eci, pci, message.rnti) for key in keys]
        right, found, wanted = one.short_mac in macs, one.short_mac.hex(), macs[0].hex()
        said = (
            Cause.KEY_RIGHT.because(what=f"short MAC {name}", found=found)
            if right
            else Cause.SHORT_MAC_WRONG.because(what=f"short MAC {name}", found=found, wanted=wanted)
        )
        self.lines.append(
            Line(
                message.frame,
                title(message),
                "short MAC",
                RIGHT if right else DIFFERS,
                said,
                of=name,
                found=found,
                wanted=wanted,
                hex=found,
                wanted_hex=wanted,
            )
        )

    def computed_short_mac(self, key: Key, eia: int, eci: int, pci: int, rnti: bytes) -> bytes:
        """shortMAC-I over VarShortMAC-Input: cell identity (28 bits), PCI (9) of the source, C-RNTI (16), filled to
        seven octets (TS 36.331 5.3.7.4)."""
        text = ((eci << 25 | pci << 16 | int.from_bytes(rnti, "big")) << 3).to_bytes(7, "big")
        integrity = self.derivations.algorithm(key, RRC_INTEGRITY, eia).value[16:]
        return self.derivations.macs[eia](integrity, ONES, BEARER_ONES, DIRECTION_ONE, text)[2:]

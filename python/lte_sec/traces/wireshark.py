"""The keys of a trace as Wireshark's table `pdcp_lte_ue_keys`: UE id, RRC encryption, user plane encryption, RRC
integrity."""
from __future__ import annotations

from collections.abc import Iterator
from dataclasses import asdict, dataclass

from ..common.terms import RRC_ENCRYPTION, RRC_INTEGRITY, UP_ENCRYPTION, Calls
from ..judge.account import Account

USUAL = 2  # the algorithms that are taken where a trace does not tell them: 128-EEA2 and 128-EIA2


VERSION = 1  # of the document that --json prints


@dataclass(frozen=True)
class TableRow:
    """A row of the table: the keys of a UE id, none for a plane without ciphering (EEA0), and whose they are."""

    ueid: int
    rrc_encryption: str
    up_encryption: str
    rrc_integrity: str
    connection: int
    frame: str
    station: str
    form: str
    eea: int
    eia: int
    are_told: bool  # by the trace: eea and eia

    def __str__(self) -> str:
        names = f"EEA{self.eea} and EIA{self.eia}{'' if self.are_told else ', which the trace does not tell'}"
        remark = (
            f"# UE id {self.ueid}: connection {self.connection}, from frame {self.frame} on at {self.station}: "
            f"{self.form}; {names}"
        )
        return f'{remark}\n"{self.ueid}","{self.rrc_encryption}","{self.up_encryption}","{self.rrc_integrity}"'


def rows(seen: Account, calls: Calls) -> Iterator[TableRow]:
    """A row for each key that a connection had in use; the n-th key of the trace has the UE id n."""
    for number, use in enumerate(seen.uses, 1):
        eea, eia = (USUAL, USUAL) if use.eea is None or use.eia is None else (use.eea, use.eia)

        def used(type: int, identity: int) -> str:
            return calls.algorithm_key(use.key, type, identity)[16:].hex() if identity else ""

        keys = used(RRC_ENCRYPTION, eea), used(UP_ENCRYPTION, eea), used(RRC_INTEGRITY, eia)
        yield TableRow(number, *keys, use.connection, use.frame, use.station, use.term, eea, eia, use.eea is not None)


def document(rows: list[TableRow], notes: list[str], status: int) -> dict[str, object]:
    """What `wireshark --json` prints: the rows, and what of the capture could not be read."""
    return {"version": VERSION, "rows": [asdict(row) for row in rows], "notes": notes, "status": status}

"""All that a verdict, a mistake or a note may say, in one table: each cause with its clause. A reason is a cause with
its values.

Code asks for causes and values alone. A text is made of them once, where it is told, and nothing reads it back: names
in it may have any form. Clauses of TS 24.301, 36.331 and 29.274 are from memory, and so is TS 33.401 7.2.10.
"""
from __future__ import annotations

import re
from collections.abc import Iterator
from dataclasses import dataclass
from enum import Enum

NAS, ACCESS, RADIO, TUNNEL = "TS 24.301", "TS 33.401", "TS 36.331", "TS 29.274"
BLAME = re.compile(r"\[(.+?)\]")  # a word of a row that a line does not say which is not judged after all


class Severity(str, Enum):
    """How grave a cause is."""

    FAULT = "fault"  # the standard forbids it
    DOUBT = "doubt"  # so that something is not judged
    REMARK = "remark"  # what a verdict rests on
    WARNING = "warning"
    NOTE = "note"
    MISTAKE = "mistake"  # of an implementation, which gives these octets


FAULT, DOUBT, REMARK, WARNING, NOTE, MISTAKE = (
    Severity.FAULT,
    Severity.DOUBT,
    Severity.REMARK,
    Severity.WARNING,
    Severity.NOTE,
    Severity.MISTAKE,
)


class Cause(Enum):
    """Each cause: how grave it is, what it says, and the standard with its clause. A key has the clause of the message
    that it is in (`clauses`)."""

    def __init__(self, severity: Severity, says: str, standard: str = "", clause: str = ""):
        self.severity, self.says, self.standard, self.clause = severity, says, standard, clause

    # What is said of keys
    KEY_RIGHT = REMARK, "{what} right: {found}"
    KEY_AND_NCC_RIGHT = REMARK, "{what} right: {found} NCC {ncc}"
    KEY_IS = REMARK, "{what} is {found}"
    KEY_DIFFERS = FAULT, "{what} [differs]: is {found}, wanted {wanted}"
    KEY_COMES_AGAIN = FAULT, "{what} [differs]: is {found}, {why}"
    NCC_DIFFERS = FAULT, "NCC [differs]: is {found}, wanted {wanted}"
    NOT_JUDGED = DOUBT, "{what} not judged: {why}"
    NOT_JUDGED_IS = DOUBT, "{what} not judged: is {found}; {why}"
    IN_USE_BEFORE = FAULT, "in use before, from frame {frame} on", ACCESS, "7.2.6.2"
    NEW_KASME = (
        FAULT,
        (
            "KeNB of a new KASME: a handover goes on from the KASME in use, until the key is changed within a cell "
            "(TS 33.401 7.2.10)"
        ),
        ACCESS,
        "7.2.10",
    )
    OCTETS = REMARK, "got {got}, wanted {wanted}"
    SHORT_MAC_WRONG = FAULT, "{what} [differs]: is {found}, wanted {wanted}", RADIO, "5.3.7.4"

    # What is said of NAS messages, and their faults
    NAS_DIFFERS = FAULT, "[differs]"
    NAS_NOT_JUDGED = DOUBT, "not judged"
    MAC_RIGHT = REMARK, "MAC right"
    MAC_AND_TEXT_RIGHT = REMARK, "MAC right, text right"
    MAC_NOT_JUDGED = DOUBT, "MAC not judged"
    MAC_WRONG = FAULT, "MAC [wrong]: is {found}, wanted {wanted}", NAS, "4.4.3.3"
    COUNT_USED_TWICE = FAULT, "COUNT used twice", NAS, "4.4.3.2"
    REPLAY_BEHIND = FAULT, "COUNT used again: a replay, {behind} COUNTs behind", NAS, "4.4.3.2"
    REPLAY_ELSEWHERE = FAULT, "COUNT used again: a replay, of another connection", NAS, "4.4.3.2"
    COUNT_NOT_RESET = FAULT, "COUNT [differs]: is {found}, where a KASME begins at 0", NAS, "4.4.3.1"
    TEXT_DIFFERS = FAULT, "text [differs]: {why}", NAS, "4.4.5"
    HEADER_DIFFERS = FAULT, "header type [differs]: is {found}, wanted {wanted}", NAS, "4.4.5"
    HEADER_OF_COMMAND = FAULT, "header type [differs]: is {found}, wanted {wanted}", NAS, "5.4.3.2"
    HEADER_OF_COMPLETE = FAULT, "header type [differs]: is {found}, wanted {wanted}", NAS, "5.4.3.3"
    HEADER_RESERVED = FAULT, "header type [differs]: is {found}, which TS 24.301 9.3.1 reserves", NAS, "9.3.1"
    TOO_SHORT = FAULT, "shorter than a protected message", NAS, "9.1"
    SIZE_OF_REQUEST = FAULT, "a Service Request has {wanted} octets, and this message {found}", NAS, "8.2.25"
    PLAIN_DOWN = FAULT, "plain behind security, which TS 24.301 4.4.4.2 does not allow", NAS, "4.4.4.2"
    PLAIN_UP = FAULT, "plain behind security, which TS 24.301 4.4.4.3 does not allow", NAS, "4.4.4.3"
    NEVER_PLAIN_DOWN = FAULT, "plain, which TS 24.301 4.4.4.2 does not allow this message", NAS, "4.4.4.2"
    NEVER_PLAIN_UP = FAULT, "plain, which TS 24.301 4.4.4.3 does not allow this message", NAS, "4.4.4.3"
    CAPABILITIES_REPLAYED = FAULT, "replayed capabilities [differ]: are {found}, wanted {wanted}", NAS, "5.4.3.2"
    KSI_OF_NO_KEY = FAULT, "KSI [differs]: is 7, which means that there is no key", NAS, "5.4.3.2"
    KSI_OF_COMMAND = (
        FAULT,
        "KSI [differs]: is {found}, wanted {wanted}, that of the Authentication Request",
        NAS,
        "5.4.3.2",
    )
    KSI_DIFFERS = FAULT, "KSI [differs]: is {found}, wanted {wanted}", NAS, "5.4.3.2"
    ALGORITHM_LACKS = FAULT, "{name}{identity} is commanded, which the phone does not have", ACCESS, "7.2.4.4"
    EIA0_IN_USE = (
        FAULT,
        "EIA0 in a secured connection without emergency, which TS 33.401 5.1.4.2 does not allow",
        ACCESS,
        "5.1.4.2",
    )
    EIA0_OUTSIDE = (
        WARNING,
        "warning: EIA0 outside an emergency call, which TS 33.401 5.1.4.2 does not allow",
        ACCESS,
        "5.1.4.2",
    )
    COMPLETE_OF_OTHER_KASME = (
        FAULT,
        "Security mode complete under the KASME before, where the Command brought another",
        NAS,
        "5.4.3.3",
    )
    COMPLETE_OF_OTHER_EIA = (
        FAULT,
        "Security mode complete under EIA{found}, where the Command brought EIA{wanted}",
        NAS,
        "5.4.3.3",
    )
    CONTEXT_REFUSED = FAULT, "under a context that the phone refused", NAS, "5.4.3.5"

    # What is said of commands, agreement, capabilities and contexts between cores
    COMMAND_RIGHT = REMARK, "command right: NCC {ncc}"
    COMMAND_RIGHT_IN_CELL = REMARK, "command right: NCC {ncc} cell ({pci},{earfcn})"
    COMMAND_DIFFERS = FAULT, "command [differs]: {why}"
    COMMAND_NCC = FAULT, "NCC is {found}, wanted {wanted}", RADIO, "5.3.5.4"
    COMMAND_CELL = FAULT, "cell is ({pci},{earfcn}), wanted ({wanted_pci},{wanted_earfcn})", RADIO, "5.3.5.4"
    COMMAND_NO_CELL = FAULT, "({pci},{earfcn}) is no cell: {ranges}", RADIO, "5.3.5.4"
    COMMAND_KEY_CHANGE = FAULT, "keyChangeIndicator is {found}, wanted {wanted}", RADIO, "5.3.5.4"
    AGREE = REMARK, "{move} {station}: phone and {station} agree on {key}"
    AGREEMENT_NOT_JUDGED = DOUBT, "{move} {station}: phone and {station} not judged"
    AGREEMENT_IN_DOUBT = DOUBT, "{move} {station}: phone and {station} not judged: {why}"
    COME_APART = (
        FAULT,
        "phone and {station} [come apart here]: the phone takes {phone}, {station} has {held}",
        ACCESS,
        "7.2.8.4.4",
    )
    STILL_APART = (
        FAULT,
        "phone and {station} [are still apart]: the phone takes {phone}, {station} has {held}",
        ACCESS,
        "7.2.8.4.4",
    )
    CAPABILITIES_TOLD = FAULT, "capabilities [differ]: {why}", ACCESS, "7.2.4.2.1, 7.2.4.4"
    CAPABILITIES_HANDED_ON = FAULT, "capabilities [differ]: {why}", ACCESS, "7.2.4.2.2"
    CAPABILITIES_ARE = REMARK, "are {parts} (bits for algorithms 1, 2, 3)"
    CAPABILITIES_EARLIER = DOUBT, "are {parts} (bits for algorithms 1, 2, 3), of an earlier connection"
    KASME_RIGHT = REMARK, "KASME right: that of {name}"
    KASME_AND_KSI_RIGHT = REMARK, "KASME right: that of {name}, KSI {ksi}"
    KASME_IS = REMARK, "KASME is that of {name}"
    KSI_OF_CONTEXT = FAULT, "KSI [differs]: is {found}, wanted {wanted}", TUNNEL, "8.38"

    # Why something is not judged
    NOT_GIVEN = DOUBT, "no KASME that was given fits"
    WAS_AWAY = DOUBT, "the phone was where the trace has no S1, and may have come by a KASME that was not given"
    EIA_NOT_COMPUTED = DOUBT, "128-EIA{eia} is not computed here"
    COUNT_FAR = DOUBT, "its COUNT is not near the last one, and the search for it was ended"
    NO_NAS = DOUBT, "shorter than a NAS message"
    DISCRIMINATOR = DOUBT, "its protocol discriminator is {found}, neither of EMM nor of ESM"
    SIZE_NOT_OF_REQUEST = DOUBT, "a Service Request has {wanted} octets, and this message {found}"
    PLAIN_BEHIND_UNJUDGED = DOUBT, "plain behind a Security Mode exchange that could not be judged"
    PLAIN_MAY_DROP_DOWN = DOUBT, "plain, so that TS 24.301 4.4.4.2 lets its receiver drop it"
    PLAIN_MAY_DROP_UP = DOUBT, "plain, so that TS 24.301 4.4.4.3 lets its receiver drop it"
    CHAIN_NOT_SHOWN = DOUBT, "the trace does not show where the chain begins"
    TRIGGER_NOT_SHOWN = DOUBT, "the trace does not show the message that brought the connection"
    MODE_NOT_SHOWN = DOUBT, "the trace lacks the Security Mode exchange before it"
    KEY_NOT_SHOWN = DOUBT, "the trace does not show the key in use"
    NH_NOT_SHOWN = (
        DOUBT,
        "its NH may have come in an answer that the trace lacks, and the trace does not show where the chain begins",
    )
    PHONE_CELL_UNKNOWN = DOUBT, "the cell of the phone is not known; name it with --cells"
    TARGET_CELL_UNKNOWN = DOUBT, "the target cell is not known; name it with --cells"
    CELL_UNKNOWN = DOUBT, "the cell is not known; name it with --cells"
    BASE_NOT_JUDGED = DOUBT, "the key that it is made from is not judged"
    STAR_NOT_JUDGED = DOUBT, "the KeNB* is not judged"
    FOREIGN_CHANGE = DOUBT, "the trace may lack a key change to a KASME that was not given"
    PCI_MAY_BE_NEW = DOUBT, "right if the cell has PCI {pci} now: the trace does not have X2 from {station}"
    IF_REFRESHED = DOUBT, "right if the phone was refreshed in its cell before"
    IF_REFRESHED_OFTEN = DOUBT, "right if the phone was refreshed in its cell before ({times} times)"
    IF_IN_CELLS = DOUBT, "right if the phone was in the cells {cells} before"
    ELSE_WANTED = DOUBT, "else wanted {wanted}"
    WAS_AT = DOUBT, "the phone was at {stations}, whose S1 the trace does not have"
    WAS_ANYWHERE = DOUBT, "the phone was at a station that the trace does not show"
    MANY_HISTORIES = DOUBT, "there were more than {most} lawful histories, and not all were kept"
    MANY_HANDOVERS = DOUBT, "there were more than {most} handovers without an end, and not all were kept"
    FAR_UPLINK = DOUBT, "right at a COUNT that was not tried, of an uplink message that the trace does not have"
    SEARCH_ENDED = (
        DOUBT,
        "right or wrong by whose messages these are, which the trace does not show; the search for that was ended",
    )
    HISTORY_FOUND = DOUBT, "a lawful history gives it, which lte_trace found and the judge did not"
    HISTORY_WITHOUT_UNSEEN = (
        DOUBT,
        "a lawful history gives it, which lte_trace found and the judge did not, with no unseen move",
    )
    HISTORY_WITH_UNSEEN = (
        DOUBT,
        "a lawful history gives it, which lte_trace found and the judge did not: with {moves} unseen",
    )
    OTHER_TECHNOLOGY = DOUBT, "to another radio technology, which is left out"
    HANDOVER_NOT_SHOWN = DOUBT, "the trace does not show its handover"
    HANDOVER_NOT_CLEAR = DOUBT, "it is not clear which handover or phone it is of"
    CONNECTION_NOT_SHOWN = DOUBT, "no connection of the trace stands under its KASME"
    NOT_NEXT = DOUBT, "only that of a Forward Relocation Request is the next of the chain"
    NCC_UNDECODED = DOUBT, "its NCC does not decode"
    RRC_UNDECODED = DOUBT, "its RRC message does not decode"
    COMMAND_UNDECODED = DOUBT, "the command does not decode"
    OTHER_CELL_ANSWERED = DOUBT, "the target answers for its cell ({pci},{earfcn})"
    ALGORITHM_NOT_TOLD = DOUBT, "the algorithm is not told, or not computed here"
    INPUTS_UNKNOWN = DOUBT, "the source cell, the C-RNTI or the key in use is not known"
    SECONDARY_STATION = DOUBT, "keys of secondary stations are left out"
    NO_RULE = DOUBT, "no rule here is for keys of this message"
    UNREADABLE = DOUBT, "{said}"  # as the reader of captures says it

    # Why a key of a capture is not replayed
    HANDOVER_NOT_REPLAYED = DOUBT, "a handover that the capture does not show"
    REPLAY_CELL_UNKNOWN = DOUBT, "the target cell is not known; name it with --cells"
    CELLS_NOT_REPLAYED = DOUBT, "a cell for re-establishment that is not known, or of the station itself"
    SUSPENSION = DOUBT, "suspension and resumption, which the profile does not have"
    NO_ORIGIN = DOUBT, "the capture does not show how its connection began"
    KENB_ON_THE_FLY = DOUBT, "a new KeNB from the KASME in use on the fly, which the profile does not have"
    CHANGE_REFUSED = DOUBT, "a key change that the station refuses, which the profile's core does not take back"
    KASME_COMES_BACK = DOUBT, "a KASME that comes back into use, which the profile does not have"
    NO_STEP_FOR_KEY = DOUBT, "no step is for a key of this message"
    COUNT_HAS_PASSED = DOUBT, "its COUNT {count} has passed in the run"
    CHANGE_CELL_UNKNOWN = DOUBT, "the cell of {station} in which the key changed is not known; name it with --cells"
    STAR_OF_STAR = DOUBT, "a chain whose first key is a KeNB* of a KeNB*"
    NUMBER_NOT_SENT = DOUBT, "a number of NH that a core of this scenario does not send"
    NO_PATH_SWITCH = DOUBT, "no path switch of the run stands for it"
    NO_REQUIRED = DOUBT, "no Handover Required of the run stands for it"
    OF_NO_PHONE = DOUBT, "it belongs to no connection of a phone that is known"
    NOT_ONE_SCENARIO = DOUBT, "its stations and cells do not go into one scenario"
    RUN_REFUSES = DOUBT, "the run refuses its step: {answer}"
    RUN_ENDED = DOUBT, "the run does not come to it"

    # What a verdict rests on
    LATE = REMARK, "late"
    SENT_AGAIN = REMARK, "sent again"
    AFTER_LOST = REMARK, "after messages that the trace lacks"
    LOST_MODE = REMARK, "after a Security Mode exchange that the trace lacks"
    LOST_CHANGE = REMARK, "after a key change that the trace lacks"
    LOST_FRAMES = REMARK, "after frames that the capture lost, as SCTP's numbers tell"
    LOST_ANSWER = REMARK, "its NH came in an answer that the trace lacks"
    UNSEEN_UPLINK = REMARK, "of an uplink message that the trace does not have"
    LAWFUL_WHERE = REMARK, "lawful where {why}"
    PCI_IS_NEW = REMARK, "the cell has PCI {pci} now, as the target answers"
    HANDED_ON = REMARK, "as the core before handed it on"

    # Notes and warnings
    FAR_AHEAD = WARNING, "warning: the core is {steps} steps of the chain ahead of the phone; at eight they come apart"
    CAME_TO_OTHER_CELL = NOTE, "the phone came to another cell of {station} than was prepared: {cell}"
    IN_OTHER_CELL = (
        NOTE,
        "the phone is in another cell of {station} now: a handover within it that the trace does not show",
    )
    AT_STATION = NOTE, "the phone is at {station} now: a handover that the trace does not show"
    CAME_ANEW = NOTE, "the phone comes to {station} anew: it was at a station that the trace does not show"
    WITHOUT_X2 = NOTE, "a handover to {station} without messages between the stations in the trace"
    TELLS_NO_CELL = NOTE, "{message} tells of cell {eci} ({pci},{earfcn}), which is none: {ranges}"
    HAS_KASME = NOTE, "{message} has the KASME {names}"
    HAS_KASMES = NOTE, "{message} has the KASMEs {names}"

    # Mistakes of keys
    SWAPPED = MISTAKE, "{one} and {other} are swapped"
    REVERSED = MISTAKE, "{what} is reversed"
    LITTLE_ENDIAN = MISTAKE, "{what} is little-endian"
    CELL_LITTLE_ENDIAN = MISTAKE, "PCI and EARFCN are little-endian"
    EARFCN_SIZE = MISTAKE, "EARFCN has {found} octets, not {wanted}"
    EARFCN_CUT = MISTAKE, "EARFCN has its low two octets only"
    PCI_CUT = MISTAKE, "PCI has one octet"
    LEFT_OUT = MISTAKE, "{what} is left out"
    NO_LENGTHS = MISTAKE, "the inputs have no lengths"
    NO_LENGTH = MISTAKE, "{what} has no length"
    TWO_OCTETS = MISTAKE, "the inputs have two octets each"
    FC = MISTAKE, "FC is 0x{found:02x}, not 0x{wanted:02x}"
    OCTETS_REVERSED = MISTAKE, "the octets are reversed"
    WORDS_REVERSED = MISTAKE, "the octets of each word of {size} are reversed"
    NO_STEP = MISTAKE, "it is the key without the step to the cell"
    COUNT_CUT = MISTAKE, "COUNT is {found}, the low {bits} bits of {wanted}"
    COUNT_LESS = MISTAKE, "COUNT is {found}, {far} less than {wanted}"
    COUNT_MORE = MISTAKE, "COUNT is {found}, {far} more than {wanted}"
    COUNT_SIZE = MISTAKE, "COUNT has three octets"
    KASME_ITSELF = MISTAKE, "it is KASME itself"
    KASME_TURNED = MISTAKE, "it is KASME, reversed"
    SYNC_OF_KASME = MISTAKE, "SYNC-input is KASME"
    SYNC_ITSELF = MISTAKE, "it is the SYNC-input itself"
    CONSTANT = MISTAKE, "all octets are {octet:02x}"
    OTHER_HALF = MISTAKE, "it is the first half of the key, not the last"
    HALF_OF_ABOVE = MISTAKE, "it is the {which} half of the key that it is made of"
    ABOVE_ITSELF = MISTAKE, "it is the key that it is made of"
    MADE_OF = MISTAKE, "it is made of {kind}, row {found}, not of row {wanted}"
    FOR_CELL = MISTAKE, "it is for PCI {pci}, EARFCN-DL {earfcn}"

    # Mistakes of MACs
    MAC_ZEROS = MISTAKE, "it is zeros"
    MAC_REVERSED = MISTAKE, "it is reversed"
    MAC_OTHER_WAY = MISTAKE, "it is that of the other direction"
    MAC_FIRST_HALF = MISTAKE, "it is that of the first half of {key}"
    MAC_OF_KEY = MISTAKE, "it is that of {key}"
    MAC_WITHOUT_NUMBER = MISTAKE, "it is without the sequence number"
    MAC_WITHOUT_HEADER = MISTAKE, "it is without the header"
    MAC_OVER_PLAIN = MISTAKE, "it is over the plain text"
    MAC_OVER_CIPHERED = MISTAKE, "it is over the ciphered text"
    MAC_OVER_ZEROS = MISTAKE, "it is over the message with zeros in place of the MAC"
    MAC_OVER_HEADER = MISTAKE, "it is over the header and the message"
    MAC_OF_BEARER = MISTAKE, "it is that of BEARER {bearer}"
    MAC_OF_EIA = MISTAKE, "it is that of 128-EIA{eia}"
    MAC_OF_KASME = MISTAKE, "it is that of {name} at COUNT {count}"
    MAC_OF_COUNT = MISTAKE, "it is that of COUNT {count}"
    MAC_OF_NUMBER = MISTAKE, "it is that of COUNT {count}, the sequence number"
    MAC_OF_EIA_AT_COUNT = MISTAKE, "it is that of 128-EIA{eia} at COUNT {count}"
    MAC_OTHER_WAY_AT_COUNT = MISTAKE, "it is that of the other direction, of 128-EIA{eia} at COUNT {count}"

    # Mistakes of ciphering, by the one who ciphers or, as `was` says, deciphers
    NO_NAS_TEXT = MISTAKE, "it is no NAS message"
    NOT_CIPHERED = MISTAKE, "it is not {was}"
    CIPHERED_OTHER_WAY = MISTAKE, "it is {was} for the other direction"
    CIPHERED_FIRST_HALF = MISTAKE, "it is {was} by the first half of {key}"
    CIPHERED_BY_KEY = MISTAKE, "it is {was} by {key}"
    CIPHERED_BY_EEA = MISTAKE, "it is {was} by 128-EEA{eea}"
    CIPHERED_WITH_BEARER = MISTAKE, "it is {was} with BEARER {bearer}"
    CIPHERED_AT_COUNT = MISTAKE, "it is {was} at COUNT {count}"
    THOSE_OTHER_WAY = MISTAKE, "they are those of the other direction"
    THOSE_OF_BEARER = MISTAKE, "they are those of BEARER {bearer}"
    THOSE_OF_COUNT = MISTAKE, "they are those of COUNT {count}"

    def of(self, **values: object) -> Reason:
        """The cause with its values."""
        return Reason(self, tuple(values.items()))

    def because(self, **values: object) -> Why:
        """The same where it stands alone."""
        return (self.of(**values),)


@dataclass(frozen=True)
class Reason:
    """A cause with its values, by name: numbers, names, or the reasons that it is told with."""

    cause: Cause
    values: tuple[tuple[str, object], ...] = ()
    where: str = ""  # the clause, where the cause has none of its own

    def __str__(self) -> str:
        return self.told()

    def told(self, is_doubted: bool = False) -> str:
        """In words; where it is in doubt it blames nothing."""
        says = BLAME.sub("not judged" if is_doubted else r"\1", self.cause.says)
        return says.format(
            **{name: told(value, is_doubted) if isinstance(value, tuple) else value for name, value in self.values}
        )

    @property
    def clause(self) -> str:
        return self.where or f"{self.cause.standard} {self.cause.clause}".strip()

    def value(self, name: str) -> object:
        """One of its values."""
        return dict(self.values).get(name)

    def all(self) -> Iterator[Reason]:
        """This, and the reasons that it is told with."""
        yield self
        for _, value in self.values:
            if isinstance(value, tuple):
                for one in value:
                    yield from one.all()


Why = tuple[Reason, ...]


def told(why: Why, is_doubted: bool = False) -> str:
    """Reasons in words, one after the other."""
    return "; ".join(one.told(is_doubted) for one in why)


def every(why: Why) -> Iterator[Reason]:
    """Reasons, with those that they are told with."""
    return (inner for one in why for inner in one.all())


def has(why: Why, *causes: Cause) -> bool:
    """Whether one of these causes is among them."""
    return any(one.cause in causes for one in every(why))

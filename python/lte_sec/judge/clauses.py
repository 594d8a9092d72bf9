"""The clause of the standard that says which key a message has: by what the key is and by the message. All other causes
have their clause themselves."""
from __future__ import annotations

from ..captures.decoding import Message, title
from ..common.causes import Why

S1_HANDOVER = ("HandoverRequest", "ForwardRelocationRequest")
SUSPENDED = ("UEContextSuspendResponse", "UEContextResumeResponse", "X2 RetrieveUEContextResponse")
CHANGE = "UEContextModificationRequest"


def of_key(message: Message, kind: str, is_prepared: bool, why: Why) -> str:
    """The clause of a KeNB, an NH or a KeNB*, which may be prepared for another cell than the target's; that of its
    cause goes before it."""
    own = next((one.clause for one in why if one.clause), "")
    if own:
        return own
    if kind == "KeNB":
        return "TS 33.401 7.2.9.2, A.3" if message.name == CHANGE else "TS 33.401 7.2.6, A.3"
    annex = "A.4" if kind == "NH" else "A.5"
    if is_prepared:
        return f"TS 33.401 7.4.3, {annex}"
    name = title(message)
    where = "7.2.11" if name in SUSPENDED else "7.2.8.4.3" if name in S1_HANDOVER else "7.2.8.4.2"
    return f"TS 33.401 {where}, {annex}"

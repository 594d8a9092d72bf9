"""Attach, Service Request and NAS COUNTs."""
from derivations import KASMES, algorithm_key, kenb, next_hop, star
from procedure import Procedure, Wanted

KASME, OTHER = KASMES[:2]
FIRST = kenb(KASME, 0)


def attach() -> Procedure:
    it = Procedure(
        "attach: KeNB of COUNT 0, which the Security Mode Complete has; keys of "
        "NAS, RRC and user data for EEA2 and EIA2"
    )
    it.attach()
    it.packet()
    it.rows = [
        algorithm_key(KASME, 1, 2),
        algorithm_key(KASME, 2, 2),
        *(algorithm_key(FIRST, kind, 2) for kind in (3, 4, 5)),
    ]
    return it


def attach_without_ciphering() -> Procedure:
    it = Procedure("a phone that has EEA0 alone: keys of ciphering for identity 0, of integrity for EIA2", caps="8020")
    it.attach()
    it.packet()
    it.rows = [
        algorithm_key(KASME, 1, 0),
        algorithm_key(KASME, 2, 2),
        *(algorithm_key(FIRST, kind, 2 * (kind == 4)) for kind in (3, 4, 5)),
    ]
    return it


def service_request() -> Procedure:
    it = Procedure(
        "two NAS messages up, a release, a Service Request of COUNT 3 at another "
        "station: KeNB of COUNT 3, NCC 0 (7.2.6.2)"
    )
    it.attach()
    for _ in range(2):
        it.step('"nas", from = "phone", text = "01"', sends=True)
        it.deliver()
    it.release()
    it.request_service()
    key = kenb(KASME, 3)
    it.connect(2, key)
    it.packet()
    it.over_x2(2, 0, 0, star(key, 0), "horizontal")
    it.switch_path(2, next_hop(KASME, key, 2))
    return it


def service_request_then_authentication() -> Procedure:
    it = Procedure(
        "a Service Request, then authentication and NAS security before the connection: KeNB of the new KASME and "
        "COUNT 0 (7.2.6.2)"
    )
    it.attach()
    it.release()
    it.request_service()
    it.secure_nas(1)
    key = kenb(OTHER, 0)
    it.connect(1, key)
    it.packet()
    it.over_x2(1, 0, 0, star(key, 0), "horizontal")
    it.switch_path(2, next_hop(OTHER, key, 2))
    return it


def idle_behind_a_new_kasme() -> Procedure:
    it = Procedure(
        "the phone goes idle behind the Security Mode Complete of a new KASME, before the key change: KeNB of the "
        "new KASME and COUNT 1"
    )
    it.attach()
    it.complete_nas()
    it.step('"idle"')
    it.request_service()
    it.connect(2, kenb(OTHER, 1))
    it.packet()
    return it


def count_256() -> Procedure:
    it = Procedure(
        "255 messages up are lost: COUNT 256 is found by its sequence number 0, "
        "with overflow counter 1; KeNB of COUNT 256"
    )
    it.attach()
    it.release()
    it.step('"skip", who = "phone", bearer = "nas", n = 255')
    it.request_service()
    it.connect(1, kenb(KASME, 256))
    it.packet()
    return it


def count_out_of_reach() -> Procedure:
    it = Procedure(
        "the phone's COUNT is 16776960, and the core expects 1: no sequence number tells it, and the MAC fails "
        "(24.301 4.4.3.1)"
    )
    it.attach()
    it.step('"idle"')
    it.step('"skip", who = "phone", bearer = "nas", n = 16776959')
    it.step('"service"', sends=True)
    it.deliver(wanted=Wanted(answer="MacFails"))
    return it


def last_count() -> Procedure:
    it = Procedure("a Service Request of the last COUNT, 2^24 - 1: KeNB of it; the next is not sent (24.301 4.4.3.5)")
    it.attach()
    it.step('"idle"')
    it.step('"skip", who = "phone", bearer = "nas", n = 16777214')
    it.step('"service"', sends=True)
    it.step('"idle"')
    it.step('"service"', Wanted(answer="CountSpent"))
    it.rows = [kenb(KASME, 16777215)]
    return it

"""Conformant networks: handovers, what is lost of them, and stations behind a gateway."""
from __future__ import annotations

from lte_sec.captures.decoding import Command

from .nas_messages import UPDATE, UPDATED, UPDATE_ACCEPT, Context, kasme_of
from .networks import (
    CELL,
    CORE,
    ENB1,
    ENB2,
    ENB2_SECOND,
    END,
    FIRST,
    GATEWAY,
    HOME1,
    HOME2,
    HOME_END,
    Network,
    attached,
    chain,
    sound,
    star,
)


@sound()
def two_preparations_and_one_is_cancelled() -> Network:
    network, phone, kenb = attached()
    for x2, cell in ((1, ENB2), (2, ENB2_SECOND)):
        network.prepare(x2, 101, ENB1, cell, star(kenb, cell), 0)
    network.x2("HandoverCancel", 1, 2, old_x2=1, new_x2=101)
    network.switch(2, 7, 101, ENB1, ENB2_SECOND, chain(kenb, phone, 2), 2)
    network.x2_handover(3, 9, 101, ENB1, star(chain(kenb, phone, 2), ENB1), 2, ENB2_SECOND, chain(kenb, phone, 3), 3)
    return network


@sound()
def two_handovers_over_s1_that_are_cancelled() -> Network:
    network, phone, kenb = attached()
    for number in (2, 3):
        network.s1_handover(
            1, 101, ENB2, ENB1, chain(kenb, phone, number), number, 20 + number, 200 + number, notified=False
        )
        network.up("HandoverCancel", 1, 1, 101)
        network.down("HandoverCancelAcknowledge", 1, 1, 101)
        network.release(2, 20 + number, 200 + number)
    network.x2_handover(1, 31, 101, ENB2, star(kenb, ENB2), 0, ENB1, chain(kenb, phone, 4), 4)
    return network


@sound()
def a_preparation_that_fails_then_s1() -> Network:
    network, phone, kenb = attached()
    network.x2("HandoverRequest", 1, 2, old_x2=1, mme_id=101, key=star(kenb, ENB2), ncc=0, eci=ENB2, source_eci=ENB1)
    network.x2("HandoverPreparationFailure", 2, 1, old_x2=1)
    network.s1_handover(1, 101, ENB2, ENB1, chain(kenb, phone, 2), 2, 21, 201)
    key = star(star(chain(kenb, phone, 2), ENB2), ENB1)
    network.x2_handover(3, 9, 201, ENB1, key, 2, ENB2, chain(kenb, phone, 3), 3)
    return network


@sound()
def a_path_switch_that_fails() -> Network:
    network, phone, kenb = attached()
    anew = Context("b", ksi=1)
    network.prepare(1, 101, ENB1, ENB2, star(kenb, ENB2), 0)
    network.up("PathSwitchRequest", 2, 7, 101, eci=ENB2)
    network.down("PathSwitchRequestFailure", 2, 7, 101)
    network.release(1, 1, 101)
    network.attach(anew, 2, 8, 120)
    return network.of(phone, anew)


@sound()
def a_key_change_refused_in_a_handover() -> Network:
    network, phone, kenb = attached()
    new = Context("b", ksi=1)
    network.security_mode(new)
    network.x2("HandoverRequest", 1, 2, old_x2=1, mme_id=101, key=star(kenb, ENB2), ncc=0, eci=ENB2, source_eci=ENB1)
    network.change_key(new.kenb(0), taken=False)
    network.x2(
        "HandoverRequestAcknowledge",
        2,
        1,
        old_x2=1,
        new_x2=101,
        container=b"c",
        command=Command(0, *CELL[ENB2], False, b"o"),
    )
    network.switch(1, 7, 101, ENB1, ENB2, chain(kenb, phone, 2), 2)
    network.change_key(new.kenb(0), 2, 7, 101)
    key = star(star(new.kenb(0), ENB2), ENB1)
    network.x2_handover(3, 9, 101, ENB1, key, 0, ENB2, chain(new.kenb(0), new, 2), 2)
    return network.of(phone, new)


@sound()
def a_chain_that_begins_anew_at_a_key_change() -> Network:
    network, phone, kenb = attached()
    new = Context("b", ksi=1)
    network.x2_handover(1, 11, 101, ENB2, star(kenb, ENB2), 0, ENB1, chain(kenb, phone, 2), 2)
    network.security_mode(new, 2, 11, 101)
    kenb = new.kenb(0)
    network.change_key(kenb, 2, 11, 101)
    network.x2_handover(2, 12, 101, ENB1, star(star(kenb, ENB2), ENB1), 0, ENB2, chain(kenb, new, 2), 2)
    network.x2_handover(
        3, 13, 101, ENB2_SECOND, star(chain(kenb, new, 2), ENB2_SECOND), 2, ENB1, chain(kenb, new, 3), 3
    )
    network.s1_handover(13, 101, ENB1, ENB2_SECOND, chain(kenb, new, 4), 4, 44, 144)
    return network.of(phone, new)


@sound(all_judged=False)
def keys_of_secondary_stations() -> Network:
    network, phone, kenb = attached()
    network.x2("SeNBAdditionRequest", 1, 2, old_x2=5, secrets=[("S-KeNB", kasme_of("s"))])
    network.x2("SgNBAdditionRequest", 1, 2, old_x2=6, secrets=[("S-KgNB", kasme_of("t"))])
    network.x2_handover(1, 11, 101, ENB2, star(kenb, ENB2), 0, ENB1, chain(kenb, phone, 2), 2)
    return network


def there_and_back() -> Network:
    network, phone, kenb = attached()
    new = Context("b", ksi=1)
    network.x2_handover(1, 11, 101, ENB2, star(kenb, ENB2), 0, ENB1, chain(kenb, phone, 2), 2)
    network.x2_handover(2, 12, 101, ENB1, star(chain(kenb, phone, 2), ENB1), 2, ENB2, chain(kenb, phone, 3), 3)
    network.downlink(phone, 1, 12, 101)
    network.uplink(phone, 1, 12, 101)
    network.release(1, 12, 101)
    network.service(phone)
    network.security_mode(new, 1, 2, 102)
    network.change_key(new.kenb(0), 1, 2, 102)
    network.uplink(new, 1, 2, 102)
    network.downlink(new, 1, 2, 102)
    network.release(1, 2, 102)
    network.service(new, 1, 3, 103)
    return network.of(phone, new)


@sound()
def a_phone_that_goes_and_comes_back() -> Network:
    return there_and_back()


@sound()
def an_answer_behind_the_next_request() -> Network:
    network, phone, kenb = attached()
    network.prepare(1, 101, ENB1, ENB2, star(kenb, ENB2), 0)
    network.up("PathSwitchRequest", 2, 7, 101, eci=ENB2)
    network.x2(
        "HandoverRequest",
        2,
        1,
        old_x2=1,
        mme_id=101,
        key=star(star(kenb, ENB2), ENB1),
        ncc=0,
        eci=ENB1,
        source_eci=ENB2,
    )
    network.down("PathSwitchRequestAcknowledge", 2, 7, 101, nh=chain(kenb, phone, 2), ncc=2)
    network.x2("UEContextRelease", 2, 1, old_x2=1, new_x2=101)
    network.x2(
        "HandoverRequestAcknowledge",
        1,
        2,
        old_x2=1,
        new_x2=102,
        container=b"d",
        command=Command(0, *CELL[ENB1], False, b"p"),
    )
    network.switch(1, 8, 101, ENB2, ENB1, chain(kenb, phone, 3), 3)
    network.x2_handover(
        5, 15, 101, ENB2_SECOND, star(chain(kenb, phone, 3), ENB2_SECOND), 3, ENB1, chain(kenb, phone, 4), 4
    )
    return network


@sound(all_judged=False)
def a_command_over_s1_and_the_phone_stays() -> Network:
    network, phone, kenb = attached()
    network.s1_handover(1, 101, ENB2, ENB1, chain(kenb, phone, 2), 2, 21, 201, notified=False)
    network.up("HandoverCancel", 1, 1, 101)
    network.down("HandoverCancelAcknowledge", 1, 1, 101)
    network.release(2, 21, 201)
    network.uplink(phone)
    network.s1_handover(1, 101, ENB2_SECOND, ENB1, chain(kenb, phone, 3), 3, 22, 202)
    key = star(star(chain(kenb, phone, 3), ENB2_SECOND), ENB1)
    network.x2_handover(3, 9, 202, ENB1, key, 3, ENB2_SECOND, chain(kenb, phone, 4), 4)
    return network


@sound(all_judged=False)
def from_utran() -> Network:
    """A handover from UTRAN brings the KeNB of a mapped context in place of NH."""
    phone = Context("a")
    network, kenb = Network().of(phone), phone.kenb(0xFFFFFFFF)
    network.add("S1", "HandoverRequest", CORE, END[2], mme_id=201, nh=kenb, ncc=0, container=b"U", eci=ENB2, kind=3)
    network.add("S1", "HandoverRequestAcknowledge", END[2], CORE, enb_id=21, mme_id=201, container=b"V")
    network.up("HandoverNotify", 2, 21, 201, eci=ENB2)
    network.uplink(phone, 2, 21, 201, UPDATE, 1)
    network.downlink(phone, 2, 21, 201, UPDATE_ACCEPT)
    network.x2_handover(1, 11, 201, ENB1, star(star(kenb, ENB2), ENB1), 0, ENB2, chain(kenb, phone, 2), 2)
    return network


def refused(begins_with: int, kind: int | None = None, eci: int | None = None) -> Network:
    """A preparation over S1 that the core refuses, then handovers over X2; the chain begins with this number."""
    network, phone, kenb = attached()
    network.up("HandoverRequired", 1, 1, 101, container=b"u", kind=kind, eci=eci)
    network.down("HandoverPreparationFailure", 1, 1, 101)
    nh = [chain(kenb, phone, number) for number in range(6)]
    network.x2_handover(1, 11, 101, ENB2, star(kenb, ENB2), 0, ENB1, nh[begins_with], begins_with)
    network.x2_handover(
        2, 12, 101, ENB1, star(nh[begins_with], ENB1), begins_with, ENB2, nh[begins_with + 1], begins_with + 1
    )
    return network


@sound(all_judged=False)
def a_preparation_to_utran_that_is_refused() -> Network:
    return refused(2, kind=1)


@sound()
def a_target_that_the_core_does_not_know() -> Network:
    return refused(2, eci=0x99901)


@sound()
def the_same_where_the_core_stepped() -> Network:
    return refused(3, eci=0x99901)


def at_home() -> tuple[Network, Context, Context, bytes]:
    """Two phones at two home stations behind one end of S1."""
    phone, other = Context("a"), Context("b")
    network = Network().of(phone, other)
    kenb = network.attach(phone, GATEWAY, eci=HOME1)
    network.attach(other, GATEWAY, 2, 102, HOME2, 2)
    return network, phone, other, kenb


@sound()
def home_stations_behind_a_gateway() -> Network:
    network, phone, other, kenb = at_home()
    network.s1_handover(1, 101, HOME2, HOME1, chain(kenb, phone, 2), 2, 3, 103, gateway=GATEWAY)
    network.s1_handover(3, 103, HOME1, HOME2, chain(kenb, phone, 3), 3, 4, 104, gateway=GATEWAY)
    network.uplink(phone, GATEWAY, 4, 104, eci=HOME1)
    network.downlink(other, GATEWAY, 2, 102)
    return network


@sound()
def path_switches_through_a_gateway() -> Network:
    network, phone, _, kenb = at_home()
    ends = HOME_END[1], HOME_END[2]
    network.add(
        "X2", "HandoverRequest", *ends, old_x2=1, mme_id=101, key=star(kenb, HOME2), ncc=0, eci=HOME2, source_eci=HOME1
    )
    network.add(
        "X2",
        "HandoverRequestAcknowledge",
        *ends[::-1],
        old_x2=1,
        new_x2=2,
        container=b"c",
        command=Command(0, *CELL[HOME2], False, b"o"),
    )
    network.up("PathSwitchRequest", GATEWAY, 5, 101, eci=HOME2)
    network.down("PathSwitchRequestAcknowledge", GATEWAY, 5, 101, nh=chain(kenb, phone, 2), ncc=2)
    network.add("X2", "UEContextRelease", *ends[::-1], old_x2=1, new_x2=2)
    network.add(
        "X2",
        "HandoverRequest",
        *ends[::-1],
        old_x2=1,
        mme_id=101,
        key=star(chain(kenb, phone, 2), HOME1),
        ncc=2,
        eci=HOME1,
        source_eci=HOME2,
    )
    return network


@sound()
def a_handover_over_s1_within_a_station() -> Network:
    network, phone, kenb = attached(station=2)
    network.s1_handover(1, 101, ENB2_SECOND, ENB2, chain(kenb, phone, 2), 2, 21, 201)
    key = star(star(chain(kenb, phone, 2), ENB2_SECOND), ENB1)
    network.x2_handover(3, 9, 201, ENB1, key, 2, ENB2_SECOND, chain(kenb, phone, 3), 3)
    return network


@sound()
def an_update_behind_a_handover() -> Network:
    network, phone, kenb = attached()
    network.x2_handover(1, 11, 101, ENB2, star(kenb, ENB2), 0, ENB1, chain(kenb, phone, 2), 2)
    network.uplink(phone, 2, 11, 101, UPDATE, 1)
    network.downlink(phone, 2, 11, 101, UPDATE_ACCEPT)
    network.uplink(phone, 2, 11, 101, UPDATED)
    network.x2_handover(2, 12, 101, ENB1, star(chain(kenb, phone, 2), ENB1), 2, ENB2, chain(kenb, phone, 3), 3)
    return network


@sound()
def twelve_handovers_over_x2_and_s1() -> Network:
    network, phone, kenb = attached()
    here, there, enb, mme, base, ncc, number = 1, 2, 1, 101, kenb, 0, 0
    for place in range(12):
        cells = FIRST[there], FIRST[here]
        number = max(2, number + 1)
        nh = chain(kenb, phone, number)
        if place % 3 == 2:  # over S1: the target makes its key of NH, and stores none
            network.s1_handover(enb, mme, *cells, nh, number % 8, 100 + place, 900 + place)
            mme, base = 900 + place, star(nh, cells[0])
        else:
            network.x2_handover(place, 100 + place, mme, cells[0], star(base, cells[0]), ncc, cells[1], nh, number % 8)
            base = nh
        enb, ncc, here, there = 100 + place, number % 8, there, here
    return network


@sound()
def kasmes_given_twice_and_of_others() -> Network:
    network, phone, kenb = attached()
    network.x2_handover(1, 11, 101, ENB2, star(kenb, ENB2), 0, ENB1, chain(kenb, phone, 2), 2)
    return network.of(phone, phone, *(Context(f"k{place}") for place in range(20)))

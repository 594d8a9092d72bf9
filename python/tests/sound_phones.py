"""Conformant networks: identities that come again, connections that end, phones that come and go."""
from __future__ import annotations

import copy

from .nas_messages import (
    ATTACH,
    ATTACHED,
    AUTHENTICATED,
    DOWN,
    UP,
    UPDATE,
    UPDATED,
    UPDATE_ACCEPT,
    UPDATE_ACTIVE,
    Context,
    accept,
    authentication,
    kasme_of,
    reallocation,
)
from .networks import CORE, CORE_2, ENB1, ENB2, END, Network, attached, chain, sound, star

EMERGENCY = ATTACH[:2] + b"\x76" + ATTACH[3:]


@sound()
def an_enb_identity_used_again_at_once() -> Network:
    network, phone, _ = attached()
    other = Context("b")
    network.release(1, 1, 101)
    network.attach(other, mme=102, tmsi=2)
    network.service(phone, 1, 2, 103)
    for context, enb, mme in ((other, 1, 102), (phone, 2, 103)):
        network.downlink(context, 1, enb, mme)
    for context, enb, mme in ((other, 1, 102), (phone, 2, 103)):
        network.uplink(context, 1, enb, mme)
    network.release(1, 1, 102)
    network.service(other, 1, 1, 104, 2)
    network.downlink(phone, 1, 2, 103)
    return network.of(phone, other)


@sound()
def messages_behind_a_release_command() -> Network:
    network, phone, _ = attached()
    network.down("UEContextReleaseCommand", 1, 1, 101)
    network.uplink(phone)
    network.downlink(phone)
    network.up("UEContextReleaseComplete", 1, 1, 101)
    network.service(phone)
    return network


@sound()
def the_old_connection_released_after_the_phone_came_elsewhere() -> Network:
    network, phone, _ = attached()
    kenb = network.service(phone, 2, 5, 105)
    network.release(1, 1, 101)
    network.downlink(phone, 2, 5, 105)
    network.uplink(phone, 2, 5, 105)
    network.x2_handover(3, 9, 105, ENB1, star(kenb, ENB1), 0, ENB2, chain(kenb, phone, 2), 2)
    return network


@sound()
def a_core_that_begins_anew() -> Network:
    network, phone, _ = attached()
    other, phone_anew, other_anew = Context("b"), Context("c", ksi=1), Context("d", ksi=2)
    network.attach(other, enb=2, mme=102, tmsi=2)
    network.add("S1", "S1SetupRequest", END[1], CORE, station=0x101, station_name="enb1")
    network.add("S1", "S1SetupResponse", CORE, END[1], gummeis=[(1, 1)])
    kenb = network.attach(other_anew, tmsi=7)
    network.attach(phone_anew, enb=2, mme=102, tmsi=8)
    network.x2_handover(4, 9, 101, ENB2, star(kenb, ENB2), 0, ENB1, chain(kenb, other_anew, 2), 2)
    return network.of(phone, other, phone_anew, other_anew)


@sound()
def a_reset_of_s1() -> Network:
    network, phone, _ = attached()
    other = Context("b")
    network.add("S1", "Reset", END[1], CORE)
    network.add("S1", "ResetAcknowledge", CORE, END[1])
    network.attach(other, tmsi=2)
    network.service(phone, 1, 3, 103)
    network.downlink(other)
    return network.of(phone, other)


@sound()
def a_periodic_update_then_a_service_request() -> Network:
    network, phone, _ = attached()
    network.release(1, 1, 101)
    network.up("InitialUEMessage", 1, 2, None, phone.seal(UP, 1, UPDATE), eci=ENB1, tmsi=1)
    network.downlink(phone, 1, 2, 102, bytes.fromhex("074900"))
    network.release(1, 2, 102)
    network.service(phone, 1, 3, 103)
    return network


@sound()
def an_update_completed_before_the_setup() -> Network:
    network, phone, _ = attached()
    network.release(1, 1, 101)
    kenb = phone.kenb(phone.counts[UP])
    network.up("InitialUEMessage", 1, 2, None, phone.seal(UP, 1, UPDATE_ACTIVE), eci=ENB1, tmsi=1)
    network.downlink(phone, 1, 2, 102, UPDATE_ACCEPT)
    network.uplink(phone, 1, 2, 102, UPDATED)
    network.down("InitialContextSetupRequest", 1, 2, 102, key=kenb)
    return network


@sound()
def sequence_numbers_that_wrap_over_idle() -> Network:
    network, phone, _ = attached()
    phone.counts = [254, 250]
    for _ in range(2):
        network.uplink(phone)
        network.downlink(phone)
    network.release(1, 1, 101)
    for enb in range(3, 11):
        network.service(phone, 1, enb, 300 + enb)
        network.downlink(phone, 1, enb, 300 + enb)
        network.release(1, enb, 300 + enb)
    return network


@sound()
def a_protected_attach_reject() -> Network:
    phone, anew = Context("a"), Context("b")
    network = Network().of(phone, anew)
    network.up("InitialUEMessage", 1, 1, None, ATTACH, eci=ENB1)
    network.security_mode(phone)
    network.downlink(phone, plain=bytes.fromhex("07440f"))
    network.release(1, 1, 101)
    network.attach(anew, enb=2, mme=102)
    return network


@sound()
def a_plain_attach_reject() -> Network:
    phone = Context("a")
    network = Network().of(phone)
    network.up("InitialUEMessage", 1, 1, None, ATTACH, eci=ENB1)
    network.down("DownlinkNASTransport", 1, 1, 101, bytes.fromhex("074416"))
    network.release(1, 1, 101)
    network.attach(phone, enb=2, mme=102)
    return network


@sound(all_judged=False)
def an_emergency_call_without_keys() -> Network:
    null, phone = Context("e", eea=0, eia=0), Context("a")
    network = Network().of(phone)
    network.up("InitialUEMessage", 1, 1, None, EMERGENCY, eci=ENB1, cause=0)
    network.security_mode(null)
    network.down("InitialContextSetupRequest", 1, 1, 101, null.seal(DOWN, 2, accept()), key=kasme_of("any"))
    network.uplink(null, plain=ATTACHED)
    network.downlink(null)
    network.attach(phone, enb=2, mme=102, tmsi=3)
    return network


@sound()
def an_authenticated_emergency_call() -> Network:
    network, phone, _ = attached(first=EMERGENCY)
    network.downlink(phone)
    return network


@sound(all_judged=False)
def a_control_plane_service_request() -> Network:
    network, phone, _ = attached()
    network.release(1, 1, 101)
    count, head = phone.counts[UP], bytes.fromhex("074d00780004")
    body = bytes([count]) + head + phone.ciphered(count, UP, bytes.fromhex("0102aabb"))
    phone.counts[UP] += 1
    network.up("InitialUEMessage", 1, 2, None, b"\x57" + phone.mac(count, UP, body) + body, eci=ENB1, tmsi=1)
    network.downlink(phone, 1, 2, 102, bytes.fromhex("074f"))
    network.down("InitialContextSetupRequest", 1, 2, 102, key=phone.kenb(count))
    return network


@sound()
def one_temporary_identity_at_two_cores() -> Network:
    phone, other = Context("a"), Context("b")
    network = Network().of(phone, other)
    network.attach(phone, mme=1, tmsi=5)
    network.attach(other, enb=2, mme=1, tmsi=5, core=CORE_2)
    network.release(1, 1, 1)
    network.release(1, 2, 1, CORE_2)
    network.service(phone, 1, 3, 7, 5)
    network.service(other, 1, 4, 8, 5, core=CORE_2)
    network.downlink(phone, 1, 3, 7)
    return network


@sound()
def a_core_identity_used_again() -> Network:
    network, phone, _ = attached()
    other = Context("b")
    network.release(1, 1, 101)
    others = network.attach(other, 2, tmsi=2)
    kenb = network.service(phone, 1, 4, 102)
    network.x2_handover(1, 11, 101, ENB1, star(others, ENB1), 0, ENB2, chain(others, other, 2), 2)
    network.x2_handover(1, 12, 102, ENB2, star(kenb, ENB2), 0, ENB1, chain(kenb, phone, 2), 2)
    return network.of(phone, other)


@sound()
def a_service_reject_then_attached_anew() -> Network:
    network, phone, _ = attached()
    network.release(1, 1, 101)
    network.up("InitialUEMessage", 1, 2, None, phone.request(), eci=ENB1, tmsi=1)
    network.down("DownlinkNASTransport", 1, 2, 102, bytes.fromhex("074e09"))
    network.release(1, 2, 102)
    anew = Context("b")
    network.attach(anew, enb=3, mme=103, tmsi=4)
    network.release(1, 3, 103)
    network.service(anew, 1, 4, 104, 4)
    return network.of(phone, anew)


@sound()
def times_that_go_back() -> Network:
    network, phone, kenb = attached()
    network.x2_handover(1, 11, 101, ENB2, star(kenb, ENB2), 0, ENB1, chain(kenb, phone, 2), 2)
    for message in network.messages[5:9]:
        message.time -= 100
    return network


@sound(all_judged=False)
def every_message_shown_twice() -> Network:
    network, phone, kenb = attached()
    network.x2_handover(1, 11, 101, ENB2, star(kenb, ENB2), 0, ENB1, chain(kenb, phone, 2), 2)
    network.release(2, 11, 101)
    network.service(phone, 2, 12, 112)
    network.uplink(phone, 2, 12, 112)
    network.messages = [one for message in network.messages for one in (message, copy.deepcopy(message))]
    return network


@sound()
def a_call_in_another_network_and_back() -> Network:
    network, phone, _ = attached()
    network.uplink(phone, plain=bytes.fromhex("074c0005f411010101"))
    network.down("UEContextModificationRequest", 1, 1, 101)
    network.up("UEContextModificationResponse", 1, 1, 101)
    network.release(1, 1, 101)
    kenb = phone.kenb(phone.counts[UP])
    network.up("InitialUEMessage", 1, 2, None, phone.seal(UP, 1, UPDATE_ACTIVE), eci=ENB1, tmsi=1)
    network.down("InitialContextSetupRequest", 1, 2, 102, phone.seal(DOWN, 2, UPDATE_ACCEPT), key=kenb)
    return network


@sound()
def a_temporary_identity_given_to_another_phone() -> Network:
    network, phone, _ = attached()
    other = Context("b")
    network.downlink(phone, plain=reallocation(77))
    network.uplink(phone, plain=bytes.fromhex("0751"))
    network.release(1, 1, 101)
    network.attach(other, enb=2, mme=102, tmsi=1)
    network.release(1, 2, 102)
    network.service(phone, 1, 3, 103, 77)
    network.service(other, 1, 4, 104, 1)
    return network.of(phone, other)


@sound()
def a_temporary_identity_that_the_phone_did_not_take() -> Network:
    network, phone, _ = attached()
    network.downlink(phone, plain=reallocation(77))
    network.release(1, 1, 101)
    network.service(phone, 1, 3, 103)
    network.downlink(phone, 1, 3, 103)
    return network


@sound(all_judged=False)
def a_setup_shown_before_the_complete() -> Network:
    network, _, _ = attached()
    at = next(at for at, one in enumerate(network.messages) if one.name == "InitialContextSetupRequest")
    network.messages[at - 1 : at + 1] = network.messages[at], network.messages[at - 1]
    return network


@sound()
def detached_by_the_core_and_attached_anew() -> Network:
    network, phone, _ = attached()
    anew = Context("b", ksi=1)
    network.downlink(phone, plain=bytes.fromhex("074509"))
    network.attach(anew, enb=2, mme=102, tmsi=6)
    network.release(1, 1, 101)
    network.uplink(anew, 1, 2, 102)
    return network.of(phone, anew)


@sound()
def an_authentication_at_another_core() -> Network:
    """The phone attaches there under its old context, which that core has; then it is authenticated anew."""
    network, phone, _ = attached()
    anew = Context("b", ksi=1)
    network.release(1, 1, 101)
    network.up("InitialUEMessage", 2, 4, None, phone.seal(UP, 1, ATTACH), eci=ENB2, core=CORE_2)
    network.down("DownlinkNASTransport", 2, 4, 50, authentication(1), core=CORE_2)
    network.up("UplinkNASTransport", 2, 4, 50, AUTHENTICATED, eci=ENB2, core=CORE_2)
    network.security_mode(anew, 2, 4, 50, CORE_2)
    network.down("InitialContextSetupRequest", 2, 4, 50, anew.seal(DOWN, 2, accept(9)), key=anew.kenb(0), core=CORE_2)
    network.uplink(anew, 2, 4, 50, ATTACHED, core=CORE_2)
    return network.of(phone, anew)

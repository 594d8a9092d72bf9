"""Conformant networks: authentications, Security Mode exchanges and algorithms."""
from __future__ import annotations

from .nas_messages import (
    ATTACH,
    ATTACHED,
    AUTHENTICATED,
    DOWN,
    INFORMATION,
    UP,
    UPDATED,
    UPDATE_ACCEPT,
    UPDATE_ACTIVE,
    Context,
    accept,
    authentication,
)
from .networks import CORE_2, ENB1, ENB2, Network, attached, chain, sound, star


def begun(phone: Context, authenticated: bool = False) -> Network:
    """A phone that asks to attach."""
    network = Network().of(phone)
    network.up("InitialUEMessage", 1, 1, None, ATTACH, eci=ENB1)
    if authenticated:
        network.authenticate(None, phone.ksi)
    return network


def set_up(network: Network, phone: Context, *more: bytes) -> Network:
    network.down("InitialContextSetupRequest", 1, 1, 101, phone.seal(DOWN, 2, accept()), *more, key=phone.kenb(0))
    return network


@sound()
def eight_authentications_with_key_changes() -> Network:
    contexts = [Context(f"k{place}", ksi=place % 7) for place in range(9)]
    network, _, _ = attached(contexts[0])
    for before, after in zip(contexts, contexts[1:]):
        network.authenticate(before, after.ksi)
        network.security_mode(after)
        network.change_key(after.kenb(0))
        network.uplink(after)
        network.downlink(after)
    network.release(1, 1, 101)
    network.service(contexts[-1])
    return network.of(*contexts)


@sound()
def twelve_authentications_under_algorithms_in_turn() -> Network:
    contexts = [Context(f"k{place}", ksi=place % 7, eea=place % 4, eia=1 + place % 3) for place in range(12)]
    network, _, _ = attached(contexts[0])
    for after in contexts[1:]:
        network.security_mode(after)
        network.change_key(after.kenb(0))
        network.uplink(after)
        network.downlink(after)
    return network.of(*contexts)


@sound()
def a_command_sent_four_times() -> Network:
    phone = Context("a")
    network = begun(phone)
    for _ in range(4):
        network.down("DownlinkNASTransport", 1, 1, 101, phone.command())
    network.up("UplinkNASTransport", 1, 1, 101, phone.complete(), eci=ENB1)
    return set_up(network, phone)


@sound()
def several_nas_messages_in_one() -> Network:
    phone = Context("a")
    network = begun(phone)
    network.security_mode(phone)
    esm = bytes.fromhex("6200c1") + bytes(9)
    network.down(
        "InitialContextSetupRequest",
        1,
        1,
        101,
        *(phone.seal(DOWN, 2, one) for one in (accept(), esm, INFORMATION)),
        key=phone.kenb(0),
    )
    network.down(
        "E_RABSetupRequest",
        1,
        1,
        101,
        phone.seal(DOWN, 2, esm),
        phone.seal(DOWN, 2, bytes.fromhex("7200c5") + bytes(5)),
    )
    network.uplink(phone, plain=bytes.fromhex("6200c2"))
    network.down("E_RABReleaseCommand", 1, 1, 101, phone.seal(DOWN, 2, bytes.fromhex("6200cd24")))
    return network


@sound()
def updated_at_another_core_under_other_algorithms() -> Network:
    network, phone, _ = attached()
    network.release(1, 1, 101)
    network.up("InitialUEMessage", 2, 4, None, phone.seal(UP, 1, UPDATE_ACTIVE), eci=ENB2, core=CORE_2, tmsi=1)
    there = phone.under(1, 1)
    kenb = there.kenb(there.counts[UP])
    network.security_mode(there, 2, 4, 50, CORE_2)
    network.down("InitialContextSetupRequest", 2, 4, 50, there.seal(DOWN, 2, UPDATE_ACCEPT), key=kenb, core=CORE_2)
    network.uplink(there, 2, 4, 50, UPDATED, core=CORE_2)
    return network


@sound()
def other_algorithms_in_a_connection() -> Network:
    network, phone, kenb = attached()
    other = phone.under(3, 3)
    network.security_mode(other)
    network.uplink(other)
    network.downlink(other)
    network.x2_handover(1, 11, 101, ENB2, star(kenb, ENB2), 0, ENB1, chain(kenb, phone, 2), 2)
    network.release(2, 11, 101)
    network.service(other, 2, 12, 112)
    return network


@sound()
def an_authentication_out_of_step() -> Network:
    phone = Context("a")
    network = begun(phone)
    for answer in (bytes.fromhex("075c15300e") + bytes(14), AUTHENTICATED):
        network.down("DownlinkNASTransport", 1, 1, 101, authentication(0))
        network.up("UplinkNASTransport", 1, 1, 101, answer, eci=ENB1)
    network.security_mode(phone)
    return set_up(network, phone)


@sound()
def a_command_rejected_and_the_old_context_goes_on() -> Network:
    network, phone, _ = attached()
    new = Context("b", ksi=1)
    network.authenticate(phone, 1)
    network.down("DownlinkNASTransport", 1, 1, 101, new.command())
    network.uplink(phone, plain=bytes.fromhex("075f17"))
    network.downlink(phone)
    network.uplink(phone)
    network.release(1, 1, 101)
    network.service(phone)
    return network.of(phone, new)


@sound()
def a_command_never_answered() -> Network:
    network, phone, _ = attached()
    new = Context("b", ksi=1)
    network.authenticate(phone, 1)
    for _ in range(3):
        network.down("DownlinkNASTransport", 1, 1, 101, new.command())
    network.release(1, 1, 101)
    kenb = network.service(phone)
    network.downlink(phone, 1, 2, 102)
    network.uplink(phone, 1, 2, 102)
    network.x2_handover(1, 11, 102, ENB2, star(kenb, ENB2), 0, ENB1, chain(kenb, phone, 2), 2)
    return network.of(phone, new)


@sound()
def an_accept_sent_again() -> Network:
    phone = Context("a")
    network = begun(phone)
    network.security_mode(phone)
    set_up(network, phone)
    for _ in range(2):
        network.downlink(phone, plain=accept())
    network.uplink(phone, plain=ATTACHED)
    return network


@sound()
def a_network_without_ciphering() -> Network:
    network, phone, _ = attached(Context("a", eea=0))
    network.downlink(phone)
    network.uplink(phone)
    network.release(1, 1, 101)
    network.service(phone)
    return network


@sound()
def the_same_with_header_type_1() -> Network:
    network, phone, _ = attached(Context("a", eea=0))
    network.downlink(phone, header=1)
    return network


@sound()
def capabilities_of_older_networks() -> Network:
    phone = Context("a")
    network = Network().of(phone)
    network.up(
        "InitialUEMessage", 1, 1, None, bytes.fromhex("07417108091010000000001004f070c04000040201d011"), eci=ENB1
    )
    told = bytes.fromhex("f070c04010")
    network.down("DownlinkNASTransport", 1, 1, 101, phone.seal(DOWN, 3, bytes([7, 0x5D, 0x22, 0, len(told)]) + told))
    network.up("UplinkNASTransport", 1, 1, 101, phone.complete(), eci=ENB1)
    return set_up(network, phone)

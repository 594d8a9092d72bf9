"""Networks with a fault in NAS or in KeNB, beside those of `faulty`."""
from __future__ import annotations

from collections.abc import Callable

from .nas_messages import (
    ATTACH,
    COMPLETE,
    COMPLETE_IMEI,
    DOWN,
    INFORMATION,
    UP,
    UPDATED,
    UPDATE_ACCEPT,
    UPDATE_ACTIVE,
    UPLINK,
    Body,
    Context,
    Mac,
    accept,
)
from .networks import ENB1, Network, attached, broken
from .simulated import CALLS
from .standin import kdf


def by_kenb(key: Callable[[Context, int, bytes], bytes]) -> Network:
    """A Service Request whose KeNB is made otherwise: from the context, the COUNT that is due, and the KeNB before."""
    network, phone, kenb = attached()
    for _ in range(3):
        network.uplink(phone)
    network.release(1, 1, 101)
    due = phone.counts[UP]
    network.fault_in(2)
    network.service(phone, key=key(phone, due, kenb))
    return network


@broken(r"is kenb\(4\), wanted kenb\(5\)")
def kenb_of_the_count_before() -> Network:
    return by_kenb(lambda phone, due, _: phone.kenb(due - 1))


@broken(r"is kenb\(6\), wanted kenb\(5\)")
def kenb_of_the_next_count() -> Network:
    return by_kenb(lambda phone, due, _: phone.kenb(due + 1))


@broken(r"KeNB differs: is .*, wanted kenb\(5\)")
def kenb_of_the_count_down() -> Network:
    return by_kenb(lambda phone, due, _: phone.kenb(phone.counts[DOWN]))


@broken(r"KeNB differs: is .*COUNT is little-endian")
def kenb_of_a_little_endian_count() -> Network:
    return by_kenb(lambda phone, due, _: kdf(phone.kasme, 0x11, due.to_bytes(4, "little")))


@broken(r"KeNB differs: is .*, wanted kenb\(5\)")
def kenb_of_the_connection_before() -> Network:
    return by_kenb(lambda phone, due, before: before)


@broken(r"KeNB differs: is .*it is KASME itself")
def kasme_as_kenb() -> Network:
    return by_kenb(lambda phone, due, _: phone.kasme)


@broken(r"is kenb\(3\), wanted kenb\(2\)")
def kenb_of_a_later_message() -> Network:
    network, phone, _ = attached()
    network.release(1, 1, 101)
    count = phone.counts[UP]
    network.up("InitialUEMessage", 1, 2, None, phone.seal(UP, 1, UPDATE_ACTIVE), eci=ENB1, tmsi=1)
    network.downlink(phone, 1, 2, 102, UPDATE_ACCEPT)
    network.uplink(phone, 1, 2, 102, UPDATED)
    network.down("InitialContextSetupRequest", 1, 2, 102, key=phone.kenb(count + 1))
    network.fault_in(0)
    return network


def begun(phone: Context, capabilities: str = "f070", complete: bytes | None = None) -> Network:
    """A phone up to its Security Mode Complete, and the setup behind it."""
    network = Network().of(phone)
    network.up("InitialUEMessage", 1, 1, None, ATTACH, eci=ENB1)
    network.down("DownlinkNASTransport", 1, 1, 101, phone.command(capabilities))
    network.up("UplinkNASTransport", 1, 1, 101, complete or phone.complete(), eci=ENB1)
    return network


def set_up(network: Network, phone: Context, count: int = 0) -> Network:
    network.down("InitialContextSetupRequest", 1, 1, 101, phone.seal(DOWN, 2, accept()), key=phone.kenb(count))
    return network


@broken(r"is kenb\(1\), wanted kenb\(0\)")
def kenb_of_the_attach_complete() -> Network:
    phone = Context("a")
    network = set_up(begun(phone), phone, 1)
    network.fault_in(0)
    return network


def at_key_change(key: Callable[[Context, Context], bytes]) -> Network:
    """A key change to a second KASME whose KeNB is made otherwise, from the context before and the new one."""
    network, phone, _ = attached()
    new, count = Context("b", ksi=1), phone.counts[UP]
    network.security_mode(new)
    phone.counts[UP] = count
    network.down("UEContextModificationRequest", 1, 1, 101, key=key(phone, new))
    network.fault_in(0)
    return network.of(phone, new)


@broken(r"KeNB differs: is kenb\(2\) of a, wanted kenb\(0\) of b")
def kenb_of_the_old_kasme() -> Network:
    return at_key_change(lambda phone, new: phone.kenb(phone.counts[UP]))


@broken(r"is kenb\(1\), wanted kenb\(0\) of b")
def kenb_of_the_next_count_at_a_key_change() -> Network:
    return at_key_change(lambda phone, new: new.kenb(1))


def with_mac(mac: Mac) -> Network:
    """A message down whose MAC is made otherwise."""
    network, phone, _ = attached()
    network.uplink(phone)
    network.downlink(phone)
    network.downlink(phone, mac=mac)
    network.fault_in(0)
    network.uplink(phone)
    network.downlink(phone)
    return network


def over(octets: Callable[[Body], bytes]) -> Mac:
    return lambda phone, count, direction, body: phone.mac(count, direction, octets(body))


@broken(r"MAC wrong: .*\(it is")
def mac_over_the_plain_text() -> Network:
    return with_mac(over(lambda body: body.octets[:1] + body.plain))


@broken(r"MAC wrong: .*\(it is")
def mac_over_the_whole_message() -> Network:
    return with_mac(over(lambda body: bytes([body.header << 4 | 7]) + bytes(4) + body.octets))


@broken(r"MAC wrong: .*\(it is")
def mac_by_the_ciphering_key() -> Network:
    return with_mac(
        lambda phone, count, direction, body: CALLS.eia2(phone.ciphering_key(), count, 0, direction, body.octets)
    )


@broken(r"MAC wrong: .*that of COUNT")
def mac_of_the_next_count() -> Network:
    return with_mac(lambda phone, count, direction, body: phone.mac(count + 1, direction, body.octets))


@broken(r"MAC wrong: .*EIA")
def mac_of_another_algorithm() -> Network:
    return with_mac(lambda phone, count, direction, body: Context(phone.name, eia=1).mac(count, direction, body.octets))


@broken(r"cipher")
def a_complete_not_ciphered() -> Network:
    phone = Context("a")
    network = begun(phone, complete=phone.seal(UP, 4, COMPLETE_IMEI, text=lambda phone, count, direction, plain: plain))
    network.fault_in(0)
    return set_up(network, phone)


@broken(r"EIA0")
def eia0_in_a_secured_connection() -> Network:
    network, phone, _ = attached()
    null = Context("a", eea=0, eia=0, down=phone.counts[DOWN])
    network.down("DownlinkNASTransport", 1, 1, 101, null.command())
    network.fault_in(0)
    network.up("UplinkNASTransport", 1, 1, 101, null.seal(UP, 4, COMPLETE), eci=ENB1)
    return network


@broken(r"replayed capabilities differ: are f060, wanted f070")
def replayed_capabilities_cut() -> Network:
    phone = Context("a")
    network = begun(phone, "f060")
    network.fault_in(-1)
    return set_up(network, phone)


@broken(r"MAC wrong")
def short_mac_of_the_first_octets() -> Network:
    network, phone, _ = attached()
    network.release(1, 1, 101)
    network.fault_in(1)
    kenb = phone.kenb(phone.counts[UP])
    network.service(phone, key=kenb, request=phone.request(lambda mac: mac[:2]))
    return network


@broken(r"COUNT used twice")
def counts_reset_under_the_same_kasme() -> Network:
    network, phone, _ = attached()
    network.uplink(phone)
    network.downlink(phone)
    phone.counts = [0, 0]
    network.down("DownlinkNASTransport", 1, 1, 101, phone.command("f07000"))
    network.fault_in(0)
    return network


@broken(r"COUNT used twice")
def count_down_used_twice() -> Network:
    network, phone, _ = attached()
    network.downlink(phone)
    network.downlink(phone, plain=INFORMATION + b"\0", count=phone.counts[DOWN] - 1)
    network.fault_in(0)
    network.downlink(phone)
    return network


@broken(r"COUNT used twice")
def count_up_used_twice() -> Network:
    network, phone, _ = attached()
    network.uplink(phone)
    network.uplink(phone, plain=UPLINK + b"\1", count=phone.counts[UP] - 1)
    network.fault_in(0)
    network.uplink(phone)
    return network


@broken(r"COUNT used twice")
def a_request_at_a_used_count() -> Network:
    network, phone, _ = attached()
    network.uplink(phone)
    network.release(1, 1, 101)
    phone.counts[UP] -= 1
    network.fault_in(1)
    network.service(phone)
    return network


@broken(r"plain")
def a_plain_attach_accept() -> Network:
    phone = Context("a")
    network = begun(phone)
    network.down("InitialContextSetupRequest", 1, 1, 101, accept(), key=phone.kenb(0))
    network.fault_in(0)
    return network


@broken(r"plain")
def a_plain_message_of_esm() -> Network:
    network, _, _ = attached()
    network.down("E_RABSetupRequest", 1, 1, 101, bytes.fromhex("6200c5") + bytes(9))
    network.fault_in(0)
    return network


@broken(r"MAC wrong|Security mode complete under")
def a_complete_under_the_old_kasme() -> Network:
    network, phone, _ = attached()
    new = Context("b", ksi=1)
    network.down("DownlinkNASTransport", 1, 1, 101, new.command())
    network.up("UplinkNASTransport", 1, 1, 101, phone.seal(UP, 4, COMPLETE), eci=ENB1)
    network.fault_in(0)
    network.downlink(new)
    network.uplink(new)
    return network.of(phone, new)


@broken(r"under a context that the phone refused")
def going_on_behind_a_reject() -> Network:
    phone = Context("a")
    network = begun(phone, complete=bytes.fromhex("075f17"))
    network = set_up(network, phone)
    network.fault_in(0)
    return network


@broken(r"KeNB differs: is kenb\(0\) of b, wanted kenb\(0\) of a")
def a_key_change_behind_a_reject() -> Network:
    network, phone, _ = attached()
    refused = Context("b", ksi=1)
    network.down("DownlinkNASTransport", 1, 1, 101, refused.command())
    network.uplink(phone, plain=bytes.fromhex("075f17"))
    network.fault_in(1)
    network.change_key(refused.kenb(0))
    return network.of(phone, refused)

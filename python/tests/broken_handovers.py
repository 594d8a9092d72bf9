"""Networks with a fault in a handover or in the core's chain."""
from __future__ import annotations

from collections.abc import Callable

from lte_sec.captures.decoding import Command

from .nas_messages import Context
from .networks import CELL, ENB1, ENB2, ENB2_SECOND, ENB3, Network, attached, broken, chain, star
from .simulated import CALLS
from .standin import kdf


def second(key: Callable[[bytes, bytes], bytes], ncc: int, told: int | None = None) -> Network:
    """Two handovers over X2; KeNB* of the second is made otherwise, from the KeNB of the connection and from NH."""
    network, phone, kenb = attached()
    network.x2_handover(1, 11, 101, ENB2, star(kenb, ENB2), 0, ENB1, chain(kenb, phone, 2), 2)
    network.fault_in(1 if told is None else 2)
    command = None if told is None else Command(told, *CELL[ENB1], False, b"told")
    network.x2_handover(
        2, 12, 101, ENB1, key(kenb, chain(kenb, phone, 2)), ncc, ENB2, chain(kenb, phone, 3), 3, command
    )
    return network


def two_handovers() -> tuple[Network, Context, bytes]:
    network, phone, kenb = attached()
    network.x2_handover(1, 11, 101, ENB2, star(kenb, ENB2), 0, ENB1, chain(kenb, phone, 2), 2)
    network.x2_handover(2, 12, 101, ENB1, star(chain(kenb, phone, 2), ENB1), 2, ENB2, chain(kenb, phone, 3), 3)
    return network, phone, kenb


def changed() -> tuple[Network, Context, Context, bytes]:
    """A phone behind a key change: the network, its contexts, and the KeNB before."""
    network, phone, kenb = attached()
    new = Context("b", ksi=1)
    network.security_mode(new)
    network.change_key(new.kenb(0))
    return network.of(phone, new), phone, new, kenb


@broken(r"NCC differs: is 1, wanted 0")
def ncc_1_for_0() -> Network:
    network, phone, kenb = attached()
    network.fault_in(1)
    network.x2_handover(1, 11, 101, ENB2, star(kenb, ENB2), 1, ENB1, chain(kenb, phone, 2), 2)
    return network


@broken(r"is star\(star\(kenb\(0\),301,6300\),10,100\), wanted star\(nh\(2\),10,100\)")
def horizontal_for_vertical() -> Network:
    return second(lambda kenb, nh: star(star(kenb, ENB2), ENB1), 0)


@broken(r"is star\(star\(kenb\(0\),301,6300\),10,100\), wanted star\(nh\(2\),10,100\)")
def horizontal_with_the_ncc_of_nh() -> Network:
    return second(lambda kenb, nh: star(star(kenb, ENB2), ENB1), 2)


@broken(r"is star\(nh\(2\),301,100\), wanted star\(nh\(2\),10,100\)")
def pci_of_the_source() -> Network:
    return second(lambda kenb, nh: CALLS.kenb_star(nh, 301, 100), 2)


@broken(r"is star\(nh\(2\),10,6300\), wanted")
def earfcn_of_the_source() -> Network:
    return second(lambda kenb, nh: CALLS.kenb_star(nh, 10, 6300), 2)


@broken(r"is star\(nh\(2\),301,6300\), wanted")
def cell_of_the_source() -> Network:
    return second(lambda kenb, nh: star(nh, ENB2), 2)


@broken(r"is star\(kenb\(0\),10,100\), wanted star\(nh\(2\),10,100\)")
def kenb_star_of_the_first_kenb() -> Network:
    return second(lambda kenb, nh: star(kenb, ENB1), 2)


@broken(r"is nh\(2\), wanted star\(nh\(2\),10,100\)")
def nh_itself_as_kenb_star() -> Network:
    return second(lambda kenb, nh: nh, 2)


@broken(r"is star\(nh\(3\),10,100\), wanted star\(nh\(2\)")
def nh_stepped_by_the_station() -> Network:
    return second(lambda kenb, nh: star(CALLS.nh(Context("a").kasme, nh), ENB1), 2)


@broken(r"is star\(nh\(3\),10,100\), wanted star\(nh\(2\),10,100\); NCC differs: is 3, wanted 2")
def nh_that_the_core_did_not_tell() -> Network:
    return second(lambda kenb, nh: star(CALLS.nh(Context("a").kasme, nh), ENB1), 3)


@broken(r"KeNB\* differs: is star\(nh\(2\),100,10\)|PCI and EARFCN are swapped")
def pci_and_earfcn_swapped() -> Network:
    return second(lambda kenb, nh: CALLS.kenb_star(nh, 100, 10), 2)


@broken(r"KeNB\* differs")
def pci_little_endian() -> Network:
    return second(lambda kenb, nh: CALLS.kenb_star(nh, 0x0A00, 100), 2)


@broken(r"EARFCN has 3 octets, not 2")
def earfcn_in_three_octets() -> Network:
    return second(lambda kenb, nh: kdf(nh, 0x13, (10).to_bytes(2, "big"), (100).to_bytes(3, "big")), 2)


@broken(r"command differs: NCC is 0, wanted 2")
def ncc_of_the_command_stale() -> Network:
    return second(lambda kenb, nh: star(nh, ENB1), 2, 0)


@broken(r"is star\(nh\(2\),301,6300\), wanted star\(nh\(3\),301,6300\); NCC differs: is 2, wanted 3")
def nh_stale() -> Network:
    network, phone, kenb = two_handovers()
    network.fault_in(1)
    network.x2_handover(3, 13, 101, ENB2, star(chain(kenb, phone, 2), ENB2), 2, ENB1, chain(kenb, phone, 4), 4)
    return network


@broken(r"NCC differs: is 2, wanted 3")
def ncc_stale() -> Network:
    network, phone, kenb = two_handovers()
    network.fault_in(1)
    network.x2_handover(3, 13, 101, ENB2, star(chain(kenb, phone, 3), ENB2), 2, ENB1, chain(kenb, phone, 4), 4)
    return network


def second_nh(nh: Callable[[bytes, Context], bytes], ncc: int = 3) -> Network:
    """Two handovers over X2; the core's second answer is made otherwise, from the KeNB of the connection."""
    network, phone, kenb = attached()
    network.x2_handover(1, 11, 101, ENB2, star(kenb, ENB2), 0, ENB1, chain(kenb, phone, 2), 2)
    network.fault_in(4)
    network.x2_handover(2, 12, 101, ENB1, star(chain(kenb, phone, 2), ENB1), 2, ENB2, nh(kenb, phone), ncc)
    return network


@broken(r"NH differs: is (?!none).*wanted nh\(3\)")
def nh_of_the_key_in_use() -> Network:
    return second_nh(lambda kenb, phone: CALLS.nh(phone.kasme, star(chain(kenb, phone, 2), ENB1)))


@broken(r"NH differs: is nh\(1\), wanted nh\(3\)")
def nh_of_the_first_kenb_again() -> Network:
    return second_nh(lambda kenb, phone: chain(kenb, phone, 1))


@broken(r"NH differs: is nh\(4\), wanted nh\(3\); NCC differs: is 4, wanted 3")
def a_number_skipped() -> Network:
    return second_nh(lambda kenb, phone: chain(kenb, phone, 4), 4)


@broken(r"NCC differs: is 1, wanted 0")
def ncc_that_does_not_wrap() -> Network:
    network, phone, kenb = attached()
    base, ncc, here, there = kenb, 0, ENB1, ENB2
    for number in range(2, 9):
        network.fault_in(4)
        network.x2_handover(
            number,
            20 + number,
            101,
            there,
            star(base, there),
            ncc,
            here,
            chain(kenb, phone, number),
            number if number < 8 else 1,
        )
        base, ncc, here, there = chain(kenb, phone, number), number, there, here
    return network


@broken(r"NH differs: is .*wanted nh\(2\)")
def nh_under_the_old_kasme() -> Network:
    network, phone, new, _ = changed()
    network.fault_in(4)
    network.x2_handover(1, 11, 101, ENB2, star(star(new.kenb(0), ENB1), ENB2), 0, ENB1, chain(new.kenb(0), phone, 2), 2)
    return network


@broken(r"NH differs: is nh\(2\).*wanted nh\(2\)")
def the_old_chain_behind_a_key_change() -> Network:
    network, phone, new, kenb = changed()
    network.fault_in(4)
    network.x2_handover(1, 11, 101, ENB2, star(star(new.kenb(0), ENB1), ENB2), 0, ENB1, chain(kenb, phone, 2), 2)
    return network


@broken(r"KeNB\* differs: is star\(kenb\(0\),301,6300\).*wanted star\(star\(kenb\(0\),10,100\),301,6300\)")
def the_old_key_behind_a_key_change() -> Network:
    network, _, new, kenb = changed()
    network.fault_in(1)
    network.x2_handover(1, 11, 101, ENB2, star(kenb, ENB2), 0, ENB1, chain(new.kenb(0), new, 2), 2)
    return network


@broken(r"KeNB\* differs: is star\(kenb\(0\),301,6300\).*wanted star\(star")
def kenb_itself_behind_a_key_change() -> Network:
    network, _, new, _ = changed()
    network.fault_in(1)
    network.x2_handover(1, 11, 101, ENB2, star(new.kenb(0), ENB2), 0, ENB1, chain(new.kenb(0), new, 2), 2)
    return network


@broken(r"is star\(nh\(2\),10,100\), wanted star\(star\(nh\(2\),301,6300\),10,100\)")
def nh_itself_behind_a_handover_over_s1() -> Network:
    network, phone, kenb = attached()
    network.s1_handover(1, 101, ENB2, ENB1, chain(kenb, phone, 2), 2, 21, 201)
    network.fault_in(1)
    network.x2_handover(3, 9, 201, ENB1, star(chain(kenb, phone, 2), ENB1), 2, ENB2, chain(kenb, phone, 3), 3)
    return network


@broken(r"NH differs: is nh\(2\), wanted nh\(3\); NCC differs: is 2, wanted 3")
def nh_of_a_cancelled_handover_again() -> Network:
    network, phone, kenb = attached()
    network.s1_handover(1, 101, ENB2, ENB1, chain(kenb, phone, 2), 2, 21, 201, notified=False)
    network.up("HandoverCancel", 1, 1, 101)
    network.fault_in(2)
    network.s1_handover(1, 101, ENB2_SECOND, ENB1, chain(kenb, phone, 2), 2, 22, 202)
    return network


@broken(r"NH differs: is nh\(2\).* of b, wanted nh\(2\) of a")
def nh_of_another_phone() -> Network:
    network, phone, kenb = attached()
    other = Context("b")
    others = network.attach(other, enb=2, mme=102, tmsi=2)
    network.fault_in(4)
    network.x2_handover(1, 11, 101, ENB2, star(kenb, ENB2), 0, ENB1, chain(others, other, 2), 2)
    return network.of(phone, other)


@broken(r"cell is \(302,1575\), wanted \(301,6300\)")
def another_cell_in_the_command() -> Network:
    network, _, kenb = attached()
    network.prepare(1, 101, ENB1, ENB2, star(kenb, ENB2), 0, Command(0, *CELL[ENB2_SECOND], False, b"told"))
    network.fault_in(0)
    return network


@broken(r"NCC differs: is 5, wanted 2")
def ncc_not_reset() -> Network:
    network, phone, _ = two_handovers()
    network.release(1, 12, 101)
    kenb = network.service(phone, enb=20, mme=120)
    network.fault_in(4)
    network.x2_handover(5, 25, 120, ENB2, star(kenb, ENB2), 0, ENB1, chain(kenb, phone, 2), 5)
    return network


@broken(r"NH differs: is .*wanted nh\(2\)")
def the_chain_of_the_connection_before() -> Network:
    network, phone, before = two_handovers()
    network.release(1, 12, 101)
    kenb = network.service(phone, enb=20, mme=120)
    network.fault_in(4)
    network.x2_handover(5, 25, 120, ENB2, star(kenb, ENB2), 0, ENB1, chain(before, phone, 4), 4)
    return network


@broken(r"star\(kenb\(0\),77,900\), wanted star\(kenb\(0\),77,66436\)")
def a_wide_earfcn_cut() -> Network:
    network, phone, kenb = attached()
    network.fault_in(1)
    network.x2_handover(1, 11, 101, ENB3, CALLS.kenb_star(kenb, 77, 66436 & 65535), 0, ENB1, chain(kenb, phone, 2), 2)
    return network


@broken(r"EARFCN has 4 octets")
def a_wide_earfcn_in_four_octets() -> Network:
    network, phone, kenb = attached()
    network.fault_in(1)
    network.x2_handover(
        1,
        11,
        101,
        ENB3,
        kdf(kenb, 0x13, (77).to_bytes(2, "big"), (66436).to_bytes(4, "big")),
        0,
        ENB1,
        chain(kenb, phone, 2),
        2,
    )
    return network

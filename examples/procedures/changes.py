"""Handovers within a station, and changes of KASME and KeNB."""
from derivations import CELLS, KASMES, kenb, next_hop, star
from procedure import Procedure, Wanted

KASME, OTHER = KASMES[:2]
FIRST = kenb(KASME, 0)


def chain(number: int, kasme: bytes = KASME) -> bytes:
    """The NH of this chain number, of a KASME and its KeNB of COUNT 0."""
    return next_hop(kasme, kenb(kasme, 0), number)


def within_twice() -> Procedure:
    it = Procedure(
        "the key is refreshed by handovers within the cell (7.2.9.3), and no pair "
        "is there: horizontal with NCC 0, twice"
    )
    it.attach()
    key = star(FIRST, 0)
    it.within(0, 0, key, "horizontal")
    it.within(0, 0, star(key, 0), "horizontal")
    it.packet()
    return it


def within_with_a_pair() -> Procedure:
    it = Procedure(
        "a handover within the cell takes the pair of the path switch (7.2.8.4.2): vertical with NCC 2; X2 then "
        "horizontal, its answer NCC 3"
    )
    it.attach()
    it.over_x2(0, 1, 0, star(FIRST, 1), "horizontal")
    it.switch_path(2, chain(2))
    key = star(chain(2), 1)
    it.within(1, 2, key, "vertical")
    it.over_x2(1, 0, 2, star(key, 0), "horizontal")
    it.switch_path(3, chain(3))
    return it


def answer_behind_a_handover_within() -> Procedure:
    it = Procedure(
        "the answer to a path switch comes behind a handover within the cell: by 7.2.8.4.2 the station stores its "
        "pair; here the request is void, and the answer Stale"
    )
    it.attach()
    it.over_x2(0, 1, 0, star(FIRST, 1), "horizontal")
    answer = it.switch_path(2, chain(2), answered=False)
    it.within(1, 0, star(star(FIRST, 1), 1), "horizontal")
    it.deliver(answer, Wanted(departs=True), sends=True)
    return it


def answer_within_a_handover_within() -> Procedure:
    it = Procedure(
        "the answer comes while a handover within the cell is on its way: by 7.2.8.4.1 the unused pair is kept, and "
        "X2 is vertical with NCC 2; here the pair goes with the old context"
    )
    it.attach()
    near = star(FIRST, 1)
    it.over_x2(0, 1, 0, near, "horizontal")
    answer = it.switch_path(2, chain(2), answered=False)
    it.within(1, 0, star(near, 1), "horizontal", meanwhile=answer)
    it.over_x2(1, 2, 2, star(chain(2), 2), "vertical", departs=True)
    return it


def eight_steps_and_nothing_lost() -> Procedure:
    it = Procedure(
        "no message is lost, and keys differ here: each target begins a handover within its cell before the answer "
        "to its path switch comes; by 7.2.8.4.1 each pair is kept, and each next handover is vertical"
    )
    it.attach()
    key, number = FIRST, 0
    for turn in range(7):
        source, target = turn % 3, (turn + 1) % 3
        base, way = (chain(number), "vertical") if number else (key, "horizontal")
        key = star(base, target)
        request = it.over_x2(source, target, number, key, way, departs=turn == 1)
        answer = it.deliver(request, Wanted(ncc=turn + 2, way="chained", key=chain(turn + 2)), sends=True)
        if turn < 6:
            key = star(key, target)
            it.step(
                f'"intra", station = {target}, cell = {list(CELLS[target])}',
                Wanted(ncc=number, way="horizontal", key=key),
            )
            release = it.deliver(answer, sends=True)
            it.step(f'"command", station = {target}', sends=True)
            it.deliver(wanted=Wanted(ncc=number, way="horizontal", key=key), sends=True)
            it.deliver(wanted=Wanted(ncc=number, way="completed", key=key))
            it.deliver(release)
        else:
            it.arrives(2)
        number = turn + 2
    it.over_x2(1, 2, number, star(chain(number), 2), "vertical")
    return it


def new_kasme() -> Procedure:
    it = Procedure(
        "a new KASME while connected (7.2.9.2): KeNB of it and COUNT 0, KeNB* of that for the own cell, NCC 0; the "
        "chain begins anew"
    )
    it.attach()
    it.complete_nas()
    key = it.change_key(0)
    it.packet()
    it.over_x2(0, 1, 0, star(key, 1), "horizontal")
    it.switch_path(2, chain(2, OTHER))
    it.over_x2(1, 0, 2, star(chain(2, OTHER), 0), "vertical")
    it.switch_path(3, chain(3, OTHER))
    return it


def new_kasme_beside_a_pair() -> Procedure:
    it = Procedure("a new KASME at a station that has an unused pair, which goes; then S1 with NCC 2 of the new chain")
    it.attach()
    it.over_x2(0, 1, 0, star(FIRST, 1), "horizontal")
    it.switch_path(2, chain(2))
    it.complete_nas()
    it.change_key(1)
    it.over_s1(1, 2, 2, chain(2, OTHER))
    it.packet()
    return it


def new_kenb_of_the_same_kasme() -> Procedure:
    it = Procedure(
        "a new KeNB of the KASME in use (7.2.9.2) begins with a NAS Security Mode Command in the context in use, "
        "which this core does not send"
    )
    it.attach()
    it.command_nas(wanted=Wanted(departs=True))
    return it


def new_kasme_before_a_path_switch() -> Procedure:
    it = Procedure(
        "a new KASME comes into use between the handover command and the path switch: by 7.2.10 the answer is of the "
        "old KASME, with NCC 2; here the request is of an old connection"
    )
    it.attach()
    request = it.over_x2(0, 1, 0, star(FIRST, 1), "horizontal")
    it.complete_nas()
    it.deliver(request, Wanted(ncc=2, way="chained", key=chain(2), departs=True), sends=True)
    return it


def path_switch_before_a_new_kasme() -> Procedure:
    it = Procedure(
        "the path switch comes before the Complete of a new KASME: its answer is of the old KASME, NCC 2 (7.2.10); "
        "then the key is changed at the new station"
    )
    it.attach()
    it.over_x2(0, 1, 0, star(FIRST, 1), "horizontal")
    request = it.records - 1
    it.authenticate(1)
    command = it.command_nas()
    it.deliver(request, Wanted(ncc=2, way="chained", key=chain(2)), sends=True)
    it.arrives(2)
    it.deliver(command, sends=True)
    it.deliver(wanted=Wanted(ncc=0, way="initial", key=kenb(OTHER, 0)), sends=True)
    it.change_key(1)
    it.packet()
    return it


def new_kasme_before_s1() -> Procedure:
    it = Procedure(
        "a new KASME is in use for NAS when Handover Required comes: by 7.2.10 the handover goes on from the old "
        "KASME, with NCC 2; here the request is of an old connection"
    )
    it.attach()
    required = it.begin_s1(0, 1)
    it.complete_nas()
    it.deliver(required, Wanted(ncc=2, way="chained", key=chain(2), departs=True), sends=True)
    return it


def new_kasme_within_s1() -> Procedure:
    it = Procedure(
        "the Complete of a new KASME comes between Handover Request and its acknowledgement: by 7.2.10 the handover "
        "goes on; here the acknowledgement is of an old connection"
    )
    it.attach()
    it.begin_s1(0, 1, ncc=2, next_hop_key=chain(2))
    acknowledgement = it.deliver(wanted=Wanted(ncc=2, way="vertical", key=star(chain(2), 1)), sends=True)
    it.complete_nas()
    it.deliver(acknowledgement, Wanted(departs=True), sends=True)
    return it


def pair_used_within_then_s1() -> Procedure:
    it = Procedure(
        "the pair of a path switch is used within the station, vertical with NCC 2; again within, horizontal with "
        "NCC 2; then S1 with NCC 3, and X2 horizontal with NCC 3"
    )
    it.attach()
    it.over_x2(0, 1, 0, star(FIRST, 1), "horizontal")
    it.switch_path(2, chain(2))
    key = star(chain(2), 1)
    it.within(1, 2, key, "vertical")
    it.within(1, 2, star(key, 1), "horizontal")
    key = it.over_s1(1, 2, 3, chain(3))
    it.over_x2(2, 0, 3, star(key, 0), "horizontal")
    it.switch_path(4, chain(4))
    it.packet()
    return it


def bearer_count_at_its_end() -> Procedure:
    it = Procedure(
        "the COUNT of a DRB is at its end: the last is used, and no other (7.2.9.3); a handover within gives a new "
        "key, and COUNT 0"
    )
    it.attach()
    it.step('"skip", who = "phone", bearer = "drb1", n = 4294967295')
    it.step('"user", from = "phone", bearer = "drb1", text = "61"', sends=True)
    it.step('"user", from = "phone", bearer = "drb1", text = "62"', Wanted(answer="CountSpent"))
    it.within(0, 0, star(FIRST, 0), "horizontal")
    it.packet()
    return it


def new_kasme_at_a_wide_earfcn() -> Procedure:
    it = Procedure("a new KASME at a cell of EARFCN-DL 70000: KeNB* of the new KeNB with three octets (A.5), then X2")
    it.secure_nas()
    it.connect(3, FIRST)
    it.complete_nas()
    key = it.change_key(3)
    it.packet()
    it.over_x2(3, 1, 0, star(key, 1), "horizontal")
    it.switch_path(2, chain(2, OTHER))
    return it


def relocation_then_service_request() -> Procedure:
    it = Procedure(
        (
            "S1 to another core; idle, and a Service Request there: NAS COUNTs went along, KeNB of COUNT 3; a new "
            "KASME there, and back over S1 with NCC 2 of its chain"
        ),
        cores=2,
    )
    it.attach()
    it.message(2)
    it.over_s1(0, 1, 2, chain(2))
    it.release()
    it.request_service()
    it.connect(1, kenb(KASME, 3))
    it.packet()
    it.complete_nas()
    it.change_key(1)
    it.packet()
    it.over_s1(1, 0, 2, chain(2, OTHER))
    it.packet()
    return it


def two_new_kasmes() -> Procedure:
    it = Procedure(
        "two new KASMEs one after the other: each time KeNB of COUNT 0, KeNB* for the own cell and a new chain"
    )
    it.attach()
    key = b""
    for ksi in (1, 2):
        it.complete_nas(ksi)
        key = it.change_key(0, ksi)
    it.packet()
    it.over_x2(0, 1, 0, star(key, 1), "horizontal")
    it.switch_path(2, chain(2, KASMES[2]))
    return it


def new_kasme_then_within() -> Procedure:
    it = Procedure(
        "a handover within behind a new KASME: horizontal of the new KeNB*, NCC 0; then S1 with NCC 2 of the new chain"
    )
    it.attach()
    it.complete_nas()
    it.within(0, 0, star(it.change_key(0), 0), "horizontal")
    it.over_s1(0, 2, 2, chain(2, OTHER))
    it.packet()
    return it


def within_eleven_times() -> Procedure:
    it = Procedure(
        "eleven handovers within the cell without a pair: NCC stays 0; then X2 "
        "horizontal with NCC 0, and its answer has NCC 2"
    )
    it.attach()
    key = FIRST
    for _ in range(11):
        key = star(key, 0)
        it.within(0, 0, key, "horizontal")
    it.over_x2(0, 1, 0, star(key, 1), "horizontal")
    it.switch_path(2, chain(2))
    it.packet()
    return it


def relocation_while_a_command_is_open() -> Procedure:
    it = Procedure(
        (
            "a handover over S1 to another core while a NAS Security Mode Command is open: the source core awaits "
            "the Complete (7.2.10); here it goes on"
        ),
        cores=2,
    )
    it.attach()
    it.authenticate(1)
    it.command_nas()
    it.step(f'"s1", station = 0, cell = {list(CELLS[1])}', sends=True)
    it.deliver(wanted=Wanted(answer="waits", departs=True), sends=True)
    return it

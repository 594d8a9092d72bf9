"""Handovers over X2 and S1, with their path switches and cancels."""
from derivations import CELLS, KASMES, algorithm_key, kenb, next_hop, star
from procedure import Procedure, Wanted

KASME = KASMES[0]
FIRST = kenb(KASME, 0)


def chain(number: int) -> bytes:
    """The NH of this chain number, of the KASME and KeNB with which each procedure here begins."""
    return next_hop(KASME, FIRST, number)


def x2_there_and_back() -> Procedure:
    it = Procedure(
        "X2 horizontal with NCC 0, whose answer has NCC 2; back vertical with NCC 2, whose answer has NCC 3 (7.2.8.4.2)"
    )
    it.attach()
    it.over_x2(0, 1, 0, star(FIRST, 1), "horizontal")
    it.switch_path(2, chain(2))
    it.over_x2(1, 0, 2, star(chain(2), 0), "vertical")
    it.switch_path(3, chain(3))
    it.packet()
    return it


def x2_eleven_times() -> Procedure:
    it = Procedure("eleven handovers over X2, all answered: NCC 0, 2, 3 .. 7, 0, 1, 2, 3")
    it.attach()
    for turn in range(11):
        base, way = (chain(turn + 1), "vertical") if turn else (FIRST, "horizontal")
        target = (turn + 1) % 3
        it.over_x2(turn % 3, target, turn + 1 if turn else 0, star(base, target), way)
        it.switch_path(turn + 2, chain(turn + 2))
    it.packet()
    return it


def x2_to_a_wide_earfcn() -> Procedure:
    it = Procedure("X2 to a cell with EARFCN-DL 70000, which has three octets in A.5, and back")
    it.attach()
    it.over_x2(0, 3, 0, star(FIRST, 3), "horizontal")
    it.switch_path(2, chain(2))
    it.over_x2(3, 0, 2, star(chain(2), 0), "vertical")
    it.switch_path(3, chain(3))
    return it


def answer_lost() -> Procedure:
    it = Procedure(
        "the first answer to a path switch is lost: the next handover is horizontal, its answer has NCC 3, and the "
        "one behind it is vertical"
    )
    it.attach()
    near = star(FIRST, 1)
    it.over_x2(0, 1, 0, near, "horizontal")
    it.switch_path(2, chain(2), answered=False)
    it.over_x2(1, 2, 0, star(near, 2), "horizontal")
    it.switch_path(3, chain(3))
    it.over_x2(2, 0, 3, star(chain(3), 0), "vertical")
    it.switch_path(4, chain(4))
    it.packet()
    return it


def request_lost_and_repeated() -> Procedure:
    it = Procedure("a Path Switch Request is lost and sent again: the core steps once, NCC 2")
    it.attach()
    it.over_x2(0, 1, 0, star(FIRST, 1), "horizontal")
    it.step('"ask", station = 1', sends=True)
    it.switch_path(2, chain(2))
    it.over_x2(1, 0, 2, star(chain(2), 0), "vertical")
    it.switch_path(3, chain(3))
    return it


def request_and_its_repetition() -> Procedure:
    it = Procedure("a Path Switch Request and its repetition both arrive: NCC 2 and 3; the answer to the newest counts")
    it.attach()
    request = it.over_x2(0, 1, 0, star(FIRST, 1), "horizontal")
    repetition = it.step('"ask", station = 1', sends=True)
    it.deliver(request, Wanted(ncc=2, way="chained", key=chain(2)), sends=True)
    it.deliver(repetition, Wanted(ncc=3, way="chained", key=chain(3)), sends=True)
    it.arrives(2)
    it.over_x2(1, 0, 3, star(chain(3), 0), "vertical")
    it.switch_path(4, chain(4))
    return it


def path_switch_never_answered() -> Procedure:
    it = Procedure(
        "a path switch is never answered, as after a Path Switch Request Failure: "
        "idle, and a Service Request of COUNT 1"
    )
    it.attach()
    it.over_x2(0, 1, 0, star(FIRST, 1), "horizontal")
    it.step('"idle"')
    it.request_service()
    it.connect(2, kenb(KASME, 1))
    it.packet()
    return it


def core_with_ncc_1() -> Procedure:
    it = Procedure(
        (
            "a scenario with first_ncc 1, which is not the standard: the first answer has the first NH; by 7.2.8.1.1 "
            "it has NCC 2 and the second NH"
        ),
        first_ncc=1,
    )
    it.attach()
    it.over_x2(0, 1, 0, star(FIRST, 1), "horizontal")
    it.deliver(wanted=Wanted(ncc=2, way="chained", key=chain(2), departs=True), sends=True)
    return it


def x2_to_another_core() -> Procedure:
    it = Procedure(
        "X2 to a station of another core: its Path Switch Request comes to a core that does not have the context",
        cores=2,
    )
    it.attach()
    it.over_x2(0, 1, 0, star(FIRST, 1), "horizontal")
    it.deliver(wanted=Wanted(answer="NotHere"))
    return it


def s1_then_x2() -> Procedure:
    it = Procedure(
        "S1: NCC 2, vertical at both ends (7.2.8.4.3); X2 from there horizontal with NCC 2, whose answer has NCC 3"
    )
    it.attach()
    key = it.over_s1(0, 1, 2, chain(2))
    it.packet()
    it.over_x2(1, 2, 2, star(key, 2), "horizontal")
    it.switch_path(3, chain(3))
    it.over_x2(2, 0, 3, star(chain(3), 0), "vertical")
    it.switch_path(4, chain(4))
    return it


def s1_twice() -> Procedure:
    it = Procedure("two handovers over S1 in a row: NCC 2 and 3")
    it.attach()
    it.over_s1(0, 1, 2, chain(2))
    it.over_s1(1, 2, 3, chain(3))
    it.packet()
    return it


def s1_to_another_core() -> Procedure:
    it = Procedure("S1 to a station of another core, and back with NCC 3; then X2", cores=2)
    it.attach()
    it.over_s1(0, 1, 2, chain(2))
    it.packet()
    key = it.over_s1(1, 0, 3, chain(3))
    it.over_x2(0, 2, 3, star(key, 2), "horizontal")
    it.switch_path(4, chain(4))
    return it


def s1_cancelled() -> Procedure:
    it = Procedure(
        "S1 cancelled by its source: the chain stays where it is; X2 then horizontal with NCC 0, its answer NCC 3, "
        "then vertical with NCC 3"
    )
    it.attach()
    it.begin_s1(0, 1, ncc=2, next_hop_key=chain(2))
    it.deliver(wanted=Wanted(ncc=2, way="vertical", key=star(chain(2), 1)), sends=True)
    it.arrives(2)
    it.step('"cancel", station = 0', sends=True)
    it.arrives(2)
    it.over_x2(0, 2, 0, star(FIRST, 2), "horizontal")
    it.switch_path(3, chain(3))
    it.over_x2(2, 1, 3, star(chain(3), 1), "vertical")
    it.switch_path(4, chain(4))
    it.packet()
    return it


def s1_cancelled_beside_a_pair() -> Procedure:
    it = Procedure(
        "the source has the pair with NCC 2, and its S1 attempt with NCC 3 is cancelled: X2 then vertical with NCC "
        "2, its answer NCC 4"
    )
    it.attach()
    it.over_x2(0, 1, 0, star(FIRST, 1), "horizontal")
    it.switch_path(2, chain(2))
    it.begin_s1(1, 2, ncc=3, next_hop_key=chain(3))
    it.step('"cancel", station = 1', sends=True)
    it.deliver(sends=True)
    it.over_x2(1, 0, 2, star(chain(2), 0), "vertical")
    it.switch_path(4, chain(4))
    return it


def s1_beside_a_pair() -> Procedure:
    it = Procedure(
        "S1 from a station that has the unused pair with NCC 2: the target gets NCC 3, and the pair is never used"
    )
    it.attach()
    it.over_x2(0, 1, 0, star(FIRST, 1), "horizontal")
    it.switch_path(2, chain(2))
    key = it.over_s1(1, 2, 3, chain(3))
    it.over_x2(2, 0, 3, star(key, 0), "horizontal")
    it.switch_path(4, chain(4))
    it.packet()
    return it


def x2_to_other_algorithms() -> Procedure:
    it = Procedure(
        (
            "X2 from EEA2 to a station whose list has EEA0 first, and back: the target chooses (7.2.4.2.2); keys of "
            "the new identities"
        ),
        priorities={1: [0, 2]},
    )
    it.attach()
    near, back = star(FIRST, 1), star(chain(2), 0)
    it.over_x2(0, 1, 0, near, "horizontal")
    it.switch_path(2, chain(2))
    it.packet()
    it.over_x2(1, 0, 2, back, "vertical")
    it.switch_path(3, chain(3))
    it.packet()
    it.rows = [
        algorithm_key(near, 3, 0),
        algorithm_key(near, 4, 2),
        algorithm_key(near, 5, 0),
        *(algorithm_key(back, kind, 2) for kind in (3, 4, 5)),
    ]
    return it


def s1_to_a_station_without_algorithm() -> Procedure:
    it = Procedure(
        (
            "S1 to a station that has no algorithm in common fails, and is cancelled: the core has stepped, X2 is "
            "horizontal with NCC 0 and its answer has NCC 3"
        ),
        caps="8020",
        priorities={1: [2]},
    )
    it.attach()
    it.begin_s1(0, 1, ncc=2, next_hop_key=chain(2))
    it.deliver(wanted=Wanted(answer="NoAlgorithm"))
    it.step('"cancel", station = 0', sends=True)
    it.deliver(sends=True)
    it.over_x2(0, 2, 0, star(FIRST, 2), "horizontal")
    it.switch_path(3, chain(3))
    it.packet()
    it.over_x2(2, 0, 3, star(chain(3), 0), "vertical")
    it.switch_path(4, chain(4))
    return it


def source_never_released() -> Procedure:
    it = Procedure(
        "the release at the source is lost each time: back at a station that has an old context, vertical with NCC "
        "2, and on with NCC 3"
    )
    it.attach()
    key, way = FIRST, "horizontal"
    for turn, (source, target) in enumerate(((0, 1), (1, 0), (0, 1))):
        it.over_x2(source, target, turn + 1 if turn else 0, star(key, target), way)
        it.switch_path(turn + 2, chain(turn + 2), answered=False)
        it.deliver(sends=True)
        key, way = chain(turn + 2), "vertical"
    it.packet()
    return it


def path_switch_lost_then_s1() -> Procedure:
    it = Procedure(
        "the Path Switch Request is lost, and a handover over S1 follows: by the rules of keys NCC 2 (a core of a "
        "product does not know the new station, and the handover fails)"
    )
    it.attach()
    it.over_x2(0, 1, 0, star(FIRST, 1), "horizontal")
    it.over_s1(1, 2, 2, chain(2))
    it.packet()
    return it


def x2_cancelled_then_within() -> Procedure:
    it = Procedure(
        "X2 with the unused pair is cancelled: the pair is back, and a handover within is vertical with NCC 2"
    )
    it.attach()
    it.over_x2(0, 1, 0, star(FIRST, 1), "horizontal")
    it.switch_path(2, chain(2))
    it.step(
        f'"x2", station = 1, cell = {list(CELLS[2])}', Wanted(ncc=2, way="vertical", key=star(chain(2), 2)), sends=True
    )
    it.deliver(wanted=Wanted(ncc=2, way="given", key=star(chain(2), 2)), sends=True)
    it.deliver()
    it.step('"cancel", station = 1', sends=True)
    it.deliver()
    it.within(1, 2, star(chain(2), 1), "vertical")
    it.packet()
    return it

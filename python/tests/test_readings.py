"""Readings of a trace: choices that are taken only where less differs so, what they need, and bounds that are told."""
from __future__ import annotations

import copy
import unittest
from collections.abc import Callable
from dataclasses import replace
from unittest import mock

from lte_sec.captures.cells import Cells
from lte_sec.judge.choices import Offer, Tape
from lte_sec.captures.decoding import Message
from lte_sec.judge.reading import check
from lte_sec.common.report import DIFFERS, RIGHT, UNKNOWN, Line
from lte_sec.judge.rereading import Reading, best
from lte_sec.judge.search import DerivationSearch
from lte_sec.judge.account import Account
from lte_sec.captures.stations import FROM_STATION
from lte_sec.common.terms import Derivations, Kasme
from lte_sec.common.causes import Cause
from lte_sec.judge.trace import Trace

from . import broken_handovers, broken_nas, sound_handovers, sound_phones
from .nas_messages import Context
from .networks import BROKEN, ENB1, ENB2, END, SITES, Network, attached, chain, star
from .crowds import crowd
from .simulated import CALLS, CELLS

FAULTS = (broken_handovers, broken_nas)  # that are registered by their import
OTHERWISE = "read otherwise than at first sight, as less differs so: "
ENDED = "the search for other readings was ended: "


def seen(network: Network, lacks: Callable[[Message], bool] = lambda _: False) -> Account:
    """What is seen of a network by a tap that lacks some messages."""
    kept = [copy.copy(one) for one in network.messages if not lacks(one)]
    return check(
        Derivations(CALLS, [Kasme(one.name, one.kasme) for one in network.contexts]), Cells(SITES), kept, 300
    ).seen


def s1_up(message: Message) -> bool:
    return message.link == "S1" and message.name in FROM_STATION


def s1_of_enb2(message: Message) -> bool:
    return message.link == "S1" and END[2] in (message.source, message.target)


def told(account: Account, verdict: object = DIFFERS) -> list[str]:
    return [value.text for _, value in account.values() if value.verdict == verdict]


def heads(account: Account, begins: str) -> list[str]:
    return [line for line in account.head if line.startswith(begins)]


def by_another_clock(off: float) -> Network:
    """Three handovers over X2, whose messages have a clock of their own."""
    network, phone, kenb = attached()
    network.x2_handover(1, 11, 101, ENB2, star(kenb, ENB2), 0, ENB1, chain(kenb, phone, 2), 2)
    network.x2_handover(2, 12, 101, ENB1, star(chain(kenb, phone, 2), ENB1), 2, ENB2, chain(kenb, phone, 3), 3)
    network.x2_handover(3, 13, 101, ENB2, star(chain(kenb, phone, 3), ENB2), 3, ENB1, chain(kenb, phone, 4), 4)
    timed: list[Message] = [
        replace(one, time=0.05 * place + (off if one.link == "X2" else 0)) for place, one in enumerate(network.messages)
    ]
    network.messages = sorted(timed, key=lambda one: one.time)
    return network


class Choices(unittest.TestCase):
    def test_with_all_links_nothing_is_chosen(self) -> None:
        for made, _ in BROKEN.values():
            self.assertEqual(heads(seen(made()), OTHERWISE), [])

    def test_a_new_connection_takes_identities_that_are_free(self) -> None:
        account = seen(sound_phones.a_core_that_begins_anew(), s1_up)
        self.assertEqual(told(account), [])
        self.assertEqual(
            len(heads(account, f"{OTHERWISE}a new connection, whose first message the trace does not show, at frame")),
            1,
            account.head,
        )

    def test_no_choice_explains_a_wrong_mac(self) -> None:
        """Its identities are those of its connection: it is no message of a phone of which nothing is known."""
        for name in (
            "mac over the plain text",
            "mac of another algorithm",
            "count down used twice",
            "a plain message of esm",
        ):
            network = BROKEN[name][0]()
            self.assertEqual([one.split()[1] for one in told(seen(network, s1_up))], network.faults, name)

    def test_a_clock_that_only_answers_tell(self) -> None:
        for off in (-0.3, 0.0, 0.3):
            account = seen(by_another_clock(off), s1_up)
            self.assertEqual(told(account), [], off)
            self.assertLessEqual(len(heads(account, f"{OTHERWISE}the clock of X2 is ")), off != 0)
        self.assertEqual(len(heads(seen(by_another_clock(0.3), s1_up), f"{OTHERWISE}the clock of X2 is ")), 1)


def read(tape: Tape, differing: tuple[int, ...], unknown: int = 0) -> Reading:
    """A reading that met two offers, in which these places differ and so many are not judged."""
    lines = [Line("1", "", "NH", DIFFERS, place=place) for place in differing] + [
        Line("1", "", "NH", UNKNOWN, place=9)
    ] * unknown
    return Reading(tape, [(3, Offer.STAYS), (6, Offer.NEW)], lines, dict.fromkeys(range(10), 0))


class Search(unittest.TestCase):
    STAYS, NEW = frozenset({(3, Offer.STAYS)}), frozenset({(6, Offer.NEW)})

    def test_the_reading_with_the_fewest_differences_counts(self) -> None:
        found = {
            self.STAYS: read(self.STAYS, (8,)),
            self.NEW: read(self.NEW, (7, 8)),
            self.STAYS | self.NEW: read(self.STAYS | self.NEW, ()),
        }
        chosen, whole = best(read(frozenset(), (7, 8)), lambda tape, _: found[tape], lambda: True)
        self.assertEqual((chosen.tape, whole), (self.STAYS | self.NEW, True))

    def test_of_as_few_differences_the_one_with_more_that_is_judged_and_fewer_choices(self) -> None:
        found = {self.STAYS: read(self.STAYS, (), 2), self.NEW: read(self.NEW, (), 1)}
        first = read(frozenset(), (7,))
        self.assertEqual(best(first, lambda tape, _: found[tape], lambda: True)[0].tape, self.NEW)
        self.assertLess(read(frozenset(), (), 1).cost(), read(self.NEW, (), 1).cost())

    def test_a_line_that_is_right_says_whose_its_message_is(self) -> None:
        first = read(frozenset(), (7,))
        first.lines.append(Line("1", "", "NH", RIGHT, place=6))
        self.assertEqual(first.open(), [(3, Offer.STAYS)])

    def test_a_bound_is_said(self) -> None:
        left = [True, False]
        self.assertEqual(best(read(frozenset(), (7,)), lambda tape, _: read(tape, (7,)), lambda: left.pop(0))[1], False)


class Bounds(unittest.TestCase):
    def test_what_differs_behind_a_choice_is_not_judged_where_a_bound_is_reached(self) -> None:
        for bound in ({"READINGS": 0}, {"TIMES": 0, "LEAST": 0}):
            with mock.patch.multiple("lte_sec.judge.rereading", **bound):  # type: ignore[arg-type]
                account = seen(sound_phones.a_core_that_begins_anew(), s1_up)
            self.assertEqual(told(account), [])
            self.assertEqual(len(heads(account, ENDED)), 1, account.head)
            self.assertTrue(any("whose messages these are" in one for one in told(account, UNKNOWN)))

    def test_readings_again_take_no_more_than_their_bound(self) -> None:
        """What is read again of a capture with links missing and many faults has a bound of steps, as no clock decides;
        and what is left over is told."""
        world, read = crowd(600, 40, 8), Trace.other
        kept = [one for one in world.messages if not s1_up(one)]
        for bound in (60, 10_000):
            steps: list[int] = []

            def other(trace: Trace, places: set[int], taken: Tape, most: int) -> Trace:
                found = read(trace, places, taken, most)
                steps.append(found.steps)
                return found

            with mock.patch.multiple("lte_sec.judge.rereading", LEAST=bound, TIMES=0), mock.patch.object(
                Trace, "other", other
            ):
                account = check(
                    Derivations(CALLS, [Kasme(one.name, one.kasme) for one in world.phones]),
                    Cells(CELLS),
                    copy.deepcopy(kept),
                    100,
                ).seen
            self.assertLess(sum(steps[:-1]), bound)
            self.assertEqual(len(heads(account, ENDED)), bound == 60, account.head)
            self.assertTrue(steps)

    def test_more_histories_than_are_kept_blame_nothing_until_the_next_kenb(self) -> None:
        network, phone, kenb = attached()
        network.x2_handover(1, 11, 101, ENB2, star(kenb, ENB2), 1, ENB1, chain(kenb, phone, 2), 2)
        network.x2_handover(2, 12, 101, ENB1, star(chain(kenb, phone, 2), ENB2), 2, ENB2, chain(kenb, phone, 3), 3)
        network.release(1, 12, 101)
        kenb = network.service(phone)
        network.x2_handover(3, 13, 102, ENB2, star(kenb, ENB1), 0, ENB1, chain(kenb, phone, 2), 2)
        with mock.patch("lte_sec.judge.state.MOST", 1), mock.patch("lte_sec.judge.histories.MOST", 1):
            account = seen(network)
        keys = [(value.verdict, value.reason) for _, value in account.values() if value.what == "KeNB*"]
        self.assertEqual([verdict for verdict, _ in keys], [DIFFERS, UNKNOWN, DIFFERS], keys)
        self.assertEqual(keys[1][1], str(Cause.MANY_HISTORIES.of(most=1)))


class Reachable(unittest.TestCase):
    def test_no_number_of_unseen_steps_gives_a_key_for_another_cell(self) -> None:
        network = BROKEN["cell of the source"][0]()
        self.assertEqual([one.split()[1] for one in told(seen(network, s1_of_enb2)) if "KeNB*" in one], network.faults)

    def test_what_the_core_gives_is_seen_on_s1_down_alone(self) -> None:
        for name in ("a number skipped", "horizontal for vertical", "nh of the first kenb again"):
            network = BROKEN[name][0]()
            self.assertEqual([one.split()[1] for one in told(seen(network, s1_up))][:1], network.faults, name)

    def test_a_request_that_s1_up_does_not_show_may_have_stepped_the_chain(self) -> None:
        self.assertEqual(told(seen(sound_handovers.the_same_where_the_core_stepped(), s1_up)), [])

    def test_what_was_found_is_known_to_each_further_reading(self) -> None:
        search = DerivationSearch(Derivations(CALLS, [Kasme("a", Context("a").kasme)]), Cells(SITES), budget=2_000)
        far = CALLS.kenb(Context("a").kasme, 123)
        self.assertEqual(str(search.find(far, [])), str(search.find(far, [])))
        search.budget.left = 0
        found = search.find(far, [])
        self.assertEqual(found and found.form, "kenb(123)")
        self.assertIsNone(search.find(CALLS.kenb(Context("a").kasme, 124), []))


if __name__ == "__main__":
    unittest.main()

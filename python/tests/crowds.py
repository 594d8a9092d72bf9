"""Many phones at once, as a long capture has them: they move, are released and come back, identities are used again,
and now and then a fault is sent."""
from __future__ import annotations

import hashlib
import random
from collections.abc import Callable

from .simulated import CELLS, Phone, World, cell_of

IDENTITIES = 1024  # of S1AP: the next one that is free is taken


class Crowd(World):
    """Phones whose identities are used again when they are free."""

    def __init__(self, phones: int):
        super().__init__()
        self.phones = [Phone(f"phone {place}", (1000 + place).to_bytes(32, "big")) for place in range(phones)]

    def fresh(self) -> int:
        taken = {identity for phone in self.phones for identity in (phone.enb_id, phone.mme_id)}
        while True:
            self.ids = (self.ids + 1) % IDENTITIES
            if self.ids not in taken:
                return self.ids

    def wrong(self) -> bytes:
        """A key that nothing gives, another one each time."""
        return hashlib.sha256(b"%d" % len(self.messages)).digest()

    def comes_back(self, phone: Phone, key: bytes) -> None:
        """A connection is released, and the phone comes back with this KeNB."""
        self.release(phone)
        self.service(phone, phone.eci, key)


def elsewhere(phone: Phone, chance: random.Random) -> int:
    """A cell of another station."""
    return chance.choice([site.eci for site in CELLS if site.station != cell_of(phone.eci).station])


def crowd(messages: int, faults: int, phones: int = 40, seed: int = 1) -> Crowd:
    """So many messages or a few more, with so many faults in them."""
    chance, world = random.Random(seed), Crowd(phones)
    sound: list[Callable[[Phone], object]] = [
        *4 * [lambda phone: world.x2(phone, elsewhere(phone, chance))],
        lambda phone: world.s1(phone, elsewhere(phone, chance)),
        *2 * [lambda phone: world.again(phone, chance.choice(CELLS).eci)],
        *2 * [lambda phone: world.nas_down(phone)],
        *2 * [lambda phone: world.nas_up(phone)],
    ]
    wrong: list[Callable[[Phone], object]] = [
        lambda phone: world.x2(phone, elsewhere(phone, chance), key=world.wrong()),
        lambda phone: world.x2(phone, elsewhere(phone, chance), nh=world.wrong()),
        lambda phone: world.fault(world.nas_down(phone, kasme=world.wrong())),
        lambda phone: world.comes_back(phone, world.wrong()),
    ]
    for place, phone in enumerate(world.phones):
        world.attach(phone, CELLS[place % len(CELLS)].eci)
    planted = 0
    while len(world.messages) < messages:
        is_due = planted < faults * len(world.messages) // messages
        planted += is_due
        chance.choice(wrong if is_due else sound)(chance.choice(world.phones))
    return world

"""Setups of actors, addresses of records and repeated steps, as the suite has them of a scenario."""
from __future__ import annotations

import unittest

from lte_sec.drive import network

from .test_suite import SCENARIO


class Networks(unittest.TestCase):
    def test_setups_are_those_of_the_frames(self) -> None:
        net = network.Network(SCENARIO)
        self.assertEqual(
            [
                "00a020",
                "060202000000000101030000000a00000064".replace("0000000a", "000a"),
                "000100000000010103000a00000064",
            ],
            [net.setup_of(actor).hex() for actor in ("phone", "core", "station 3")],
        )

    def test_a_record_goes_to_its_address(self) -> None:
        net = network.Network(SCENARIO)
        addresses = {
            "00030000000101": ("phone", "03030000000101ff"),
            "01": ("phone", "02ff"),
            "02": ("core", "02ff"),
            "03": ("core", "04ff"),
            "04030000000181": ("station 3", "030000000181ff"),
            "0503": ("station 3", "04ff"),
            "0603": ("station 3", "05ff"),
        }
        for address, (actor, body) in addresses.items():
            net.records.append(network.SentRecord(bytes.fromhex(address), b"\xff", "Nas"))
            self.assertEqual(
                [network.Told(actor, bytes.fromhex(body), "Nas")], net.told({"do": "deliver", "record": -1})
            )
        with self.assertRaises(network.NoRecord):
            net.told({"do": "deliver", "record": 7})

    def test_steps_are_repeated(self) -> None:
        step = {
            "do": "repeat",
            "times": 2,
            "step": [{"do": "smc"}, {"do": "repeat", "times": 2, "step": [{"do": "idle"}]}],
        }
        self.assertEqual(["smc", "idle", "idle"] * 2, [each["do"] for each in network.steps_of([step])])


if __name__ == "__main__":
    unittest.main()

"""Actors that fail, are silent or work long: how the suite tells it."""
from __future__ import annotations

import sys
import time
import unittest

from lte_sec.drive import peers


class Peers(unittest.TestCase):
    def fault_of(self, program: str, is_silent: bool) -> peers.PeerFault:
        """How an actor fails; where it is to be silent it gets little time, once it is connected."""
        peer = peers.Peer(
            [sys.executable, "-c", program], "phone", 0.3 if is_silent and "socket" not in program else 60
        )
        try:
            with self.assertRaises(peers.PeerFault) as found:
                peer.connect()
                assert peer.connection
                peer.seconds = 0.3 if is_silent else 60
                peer.connection.settimeout(peer.seconds)
                peer.send(b"\0\xa0\x20")
                peer.reply()
            return found.exception
        finally:
            peer.end()

    def test_an_actor_that_fails_is_told_by_how(self) -> None:
        serves = (
            "import socket\ns = socket.create_server(('127.0.0.1', 0)); print(s.getsockname()[1], "
            "flush=True)\nc, _ = s.accept()\n"
        )
        cases = {
            "import time; time.sleep(9)": "said no port within",
            "print('port', flush=True)": "not the number of a port",
            "": "ended and said no port",
            "print(1, flush=True)": "nothing took a connection",
            serves + "c.recv(9)": "closed the connection before the reply",
            serves + "import time; time.sleep(9)": "was silent for 0.3 seconds where the reply was due",
            serves + "c.recv(9); c.sendall(b'\\0\\5\\0'); c.close()": "before the rest of the reply",
        }
        for program, told in cases.items():
            with self.subTest(told):
                is_silent = "seconds" in told or "within" in told
                fault = self.fault_of(program, is_silent)
                self.assertIn(told, str(fault))
                self.assertEqual(is_silent, fault.is_silent)

    def test_an_actor_that_works_has_longer(self) -> None:
        works = (
            "import time\nends = time.process_time() + 0.5\nwhile time.process_time() < ends: "
            "pass\nprint('port', flush=True)"
        )
        peer = peers.Peer([sys.executable, "-S", "-c", works], "phone", 0.2)
        try:
            peer.seconds = 60
            with self.assertRaisesRegex(peers.PeerFault, "not the number of a port"):
                peer.port()
        finally:
            peer.end()

    def test_work_is_that_of_a_process_and_of_those_that_it_starts(self) -> None:
        for program, is_at_work in (
            ("while True: pass", True),
            ("import subprocess, sys; subprocess.run([sys.executable, '-c', 'while True: pass'])", True),
            ("import time; time.sleep(60)", False),
        ):
            with self.subTest(program):
                peer = peers.Peer([sys.executable, "-S", "-c", program], "phone", 1)
                try:
                    time.sleep(1)
                    work = peers.Activity(peer.process.pid)
                    looks = [work.look() for _ in range(4) if not time.sleep(0.1)]  # type: ignore[func-returns-value]
                    self.assertEqual(is_at_work, any(looks[1:]))
                finally:
                    peer.end()

    def test_an_actor_that_works_for_ever_has_its_time_of_a_processor(self) -> None:
        peer = peers.Peer([sys.executable, "-S", "-c", "while True: pass"], "phone", 0.8)
        try:
            with self.assertRaisesRegex(peers.PeerFault, "no port within 0.8 seconds") as found:
                peer.port()
            self.assertTrue(found.exception.is_silent)
        finally:
            peer.end()


if __name__ == "__main__":
    unittest.main()

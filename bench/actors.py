"""The actors of the program, served: sessions with each, and what a run of all of them sends under protection."""
from __future__ import annotations

import itertools
import os
import re
import resource
import select
import socket
import subprocess
from collections.abc import Iterator
from pathlib import Path

from frames import TOP, Reply, Wrong, framed
from lte_sec.drive.frames import BEARERS

PROGRAM = TOP / "crates" / "lte_sec_app" / "out" / "lte_sec_app"  # or what `--program` names
SECONDS = 60
ROOT = bytes(range(32))
Sent = tuple[int, bytes, bytes]  # a record by the tag of its address, the address's values, and its octets
Ended = tuple[bytes, bytes, int, int]  # what came behind the replies, what was printed, status and memory


def touched(used: resource.struct_rusage) -> int:
    """The memory that a process touched, in KiB: its page faults. Its peak would begin with that of this script."""
    return used.ru_minflt * 4


class Server:
    """The program serving a role, and the connection to it."""

    def __init__(self, words: list[str]):
        self.child = subprocess.Popen([PROGRAM, "serve", *words], stdin=subprocess.DEVNULL, stdout=subprocess.PIPE)
        assert self.child.stdout
        self.told = self.child.stdout
        self.connection = socket.create_connection(("127.0.0.1", int(self.told.readline())), SECONDS)
        self.connection.setsockopt(socket.IPPROTO_TCP, socket.TCP_NODELAY, 1)
        self.come = b""

    def exchange(self, octets: bytes, replies: int) -> list[bytes]:
        """Sends octets and takes so many replies."""
        frames: list[bytes] = []
        while octets or len(frames) < replies:
            if not octets:
                readable, writable = [self.connection], list[socket.socket]()
            else:
                readable, writable, _ = select.select([self.connection], [self.connection], [], SECONDS)
            if writable:
                octets = octets[self.connection.send(octets[:65536]) :]
            if readable:
                piece = self.connection.recv(1 << 20)
                # The program's next replies wait until this one is acknowledged.
                self.connection.setsockopt(socket.IPPROTO_TCP, socket.TCP_QUICKACK, 1)
                if not piece:
                    raise Wrong("the session ended too early")
                self.come += piece
                frames += self.whole_frames()
        if len(frames) != replies:
            raise Wrong(f"{len(frames)} replies to {replies} frames")
        return frames

    def whole_frames(self) -> list[bytes]:
        frames, place = [], 0
        while place + 2 <= len(self.come):
            end = place + 2 + int.from_bytes(self.come[place : place + 2], "big")
            if end > len(self.come):
                break
            frames.append(self.come[place:end])
            place = end
        self.come = self.come[place:]
        return frames

    def memory(self) -> int:
        """The memory that the program has, in KiB."""
        found = re.search(r"VmRSS:\s+(\d+)", Path(f"/proc/{self.child.pid}/status").read_text())
        assert found
        return int(found[1])

    def end(self) -> Ended:
        """Ends the session: what else came, what was printed after the port, the status and the memory."""
        with self.told, self.connection:
            more = self.come
            try:
                self.connection.shutdown(socket.SHUT_WR)
                while piece := self.connection.recv(1 << 20):
                    more += piece
            except OSError:
                pass  # it ended before it read all
            printed = self.told.read()
            _, status, used = os.wait4(self.child.pid, 0)
            self.child.returncode = os.waitstatus_to_exitcode(status)
        return more, printed, self.child.returncode, touched(used)


class System:
    """All actors served, and each record carried, so that its octets are known."""

    def __init__(self) -> None:
        cells = b"\2\2\0" + b"\0\0\0\1" + b"\2" + b"".join(bytes([s]) + cell(s)[1] for s in (0, 1))
        self.servers = {r: Server(r.split("-")) for r in ("phone", "core", "station-0", "station-1")}
        self.sent: list[Sent] = []
        for role in self.servers:
            self.tell(role, 0, b"\xa0\x20" if role == "phone" else cells)

    def tell(self, role: str, kind: int, body: bytes = b"") -> None:
        reply = Reply(self.servers[role].exchange(framed(kind, body), 1)[0])
        if reply.answer != 0:
            raise Wrong(f"{role} answers {reply.answer}")
        if reply.sent:
            self.sent.append(reply.sent)

    def deliver(self) -> None:
        tag, values, octets = self.sent[-1]
        role = {0: "phone", 1: "phone", 2: "core", 3: "core"}.get(tag) or f"station-{values[0]}"
        kind = {0: 3, 1: 2, 2: 2, 3: 4, 4: 3, 5: 4, 6: 5}[tag]
        self.tell(role, kind, {0: values, 4: values[1:]}.get(tag, b"") + octets)

    def end(self) -> None:
        for server in self.servers.values():
            server.end()


def cell(of: int) -> tuple[str, bytes]:
    return f"cell=[{10 + of},{100 + of}]", (10 + of).to_bytes(2, "big") + (100 + of).to_bytes(4, "big")


def acts() -> Iterator[tuple[str, list[tuple[str, int, bytes]], int]]:
    """The steps of a run, each as a scenario has it and as it is told to its actor; without deliveries."""
    yield f"do='auth',ksi=0,kasme='{ROOT.hex()}'", [
        ("phone", 1, b"\0" + ROOT),
        ("core", 1, b"\0" + ROOT + b"\xa0\x20"),
    ], 0
    yield "do='smc'", [("core", 0x20, b"")], 2
    yield f"do='connect',{cell(0)[0]}", [("core", 0x21, cell(0)[1])], 3
    at = 0
    for turn in itertools.count():
        station = f"station-{at}"
        for bearer in (0x81, 0x84, 0x01, 0x02):
            word, kind = ("user", 0x13) if bearer > 2 else ("rrc", 0x14)
            fields = f"bearer='{BEARERS[bearer]}',text='{turn:02x}6869'"
            body = bytes([bearer, turn]) + b"hi"
            yield f"do='{word}',from='phone',{fields}", [("phone", kind, body)], 1
            yield f"do='{word}',from='station',station={at},{fields}", [(station, kind, body)], 1
        for role in ("phone", "core"):
            yield f"do='nas',from='{role}',text='{turn:02x}'", [(role, 0x15, bytes([turn]))], 1
        to, word, code, before, behind = ((1 - at, "x2", 0, 2, 5), (1 - at, "s1", 1, 4, 3), (at, "intra", 2, 0, 2))[
            turn % 3
        ]
        yield f"do='{word}',station={at},{cell(to)[0]}", [(station, 0x30, bytes([code]) + cell(to)[1])], before
        yield f"do='command',station={at}", [(station, 0x31, b"")], behind
        at = to


def protected(most: int) -> list[tuple[Sent, list[str]]]:
    """Records under a MAC or ciphered, each with the steps before its delivery."""
    system, steps = System(), list[str]()
    found: list[tuple[Sent, list[str]]] = []
    for text, told, deliveries in acts():
        steps.append(f"{{{text}}}")
        for each in told:
            system.tell(*each)
        for _ in range(deliveries):
            if system.sent[-1][0] in (0, 1, 2, 4):
                found.append((system.sent[-1], list(steps)))
            system.deliver()
            steps.append("{do='deliver',record=-1}")
        if len(found) >= most:
            break
    system.end()
    return found[:most]

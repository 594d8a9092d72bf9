"""Actors of one's own that may take longer than the program waits for a reply: `drive --timeout SECONDS`.

The program waits ten seconds. So each such actor is started here, once, and its octets go through here: the program is
given a port of this process. Where an actor takes longer, the program ends; once the reply has come the program is
started again, and is given what the actor has said so far. A run is deterministic, so that it comes to the same place.
"""
from __future__ import annotations

import contextlib
import select
import socket
import subprocess
import threading
import time

from lte_sec.drive.peers import TO_SAY, Peer, PeerFault

TURN, PIECE = 0.05, 65536  # seconds between two looks at who has ended; octets that are read at once
STARTS = 10  # seconds that an actor has at least until it has said its port


class Frames:
    """Octets in one direction, and how many whole frames they have."""

    def __init__(self) -> None:
        self.octets, self.count, self.place = bytearray(), 0, 0

    def take(self, piece: bytes) -> None:
        self.octets += piece
        while len(self.octets) >= self.place + 2:
            ends = self.place + 2 + int.from_bytes(self.octets[self.place : self.place + 2], "big")
            if len(self.octets) < ends:
                return
            self.place, self.count = ends, self.count + 1


class Relay:
    """An actor, and what was told and said so far."""

    def __init__(self, actor: str, command: list[str], seconds: float):
        self.actor, self.seconds = actor, seconds
        self.told, self.said = Frames(), Frames()
        self.is_closed, self.counted, self.to_say = False, 0, TO_SAY
        self.moved = time.monotonic()
        self.is_over = threading.Event()  # the program has ended
        self.thread: threading.Thread | None = None
        self.listener = socket.create_server(("127.0.0.1", 0))
        try:
            self.peer = Peer(command, actor, max(seconds, STARTS), True)
        except PeerFault:
            self.listener.close()
            raise

    def connect(self) -> None:
        self.peer.connect()

    def command(self) -> str:
        """What the program is given for the actor: a command that says this port, a word in a line."""
        return f"/bin/sh\n-c\necho {self.listener.getsockname()[1]}; exec sleep 1000000"

    def begin(self) -> None:
        """The program is started, and what comes is handed on in both directions until `finish`."""
        self.is_over.clear()
        self.thread = threading.Thread(target=self.hand_on, daemon=True)
        self.thread.start()

    def finish(self) -> None:
        """The program has ended."""
        self.is_over.set()
        if self.thread:
            self.thread.join()

    def owes(self) -> bool:
        """Whether the actor has still to reply."""
        return self.told.count > self.said.count and not self.is_closed

    def is_late(self) -> bool:
        """Whether it owes a reply, and its time is over."""
        return self.owes() and time.monotonic() - self.moved >= self.seconds

    def hand_on(self) -> None:
        """Hands on what comes; first what the actor said to the program that was there before."""
        self.listener.settimeout(TURN)
        program = None
        while program is None and not self.is_over.is_set():
            with contextlib.suppress(TimeoutError):
                program, _ = self.listener.accept()
        if program is None:
            return
        with program, contextlib.suppress(OSError):
            program.sendall(self.said.octets)
            self.between(program)

    def between(self, program: socket.socket) -> None:
        known, is_heard = len(self.told.octets), True
        while not self.is_over.is_set() and not self.is_late() and not self.is_closed:
            ready, _, _ = select.select([program] * is_heard + [self.peer.connection], [], [], TURN)
            if program in ready:
                piece = program.recv(PIECE)
                is_heard = bool(piece)
                known, new = max(0, known - len(piece)), piece[known:]
                self.tell(new)
            if self.peer.connection in ready:
                program.sendall(self.hear())

    def tell(self, piece: bytes) -> None:
        if piece and self.peer.connection:
            self.told.take(piece)
            self.moved = time.monotonic()
            with contextlib.suppress(ConnectionError):
                self.peer.connection.sendall(piece)

    def hear(self) -> bytes:
        """What the actor says; nothing where it has closed."""
        try:
            piece = self.peer.connection.recv(PIECE) if self.peer.connection else b""
        except ConnectionError:
            piece = b""
        self.is_closed = not piece
        self.moved = time.monotonic()
        self.said.take(piece)
        return piece

    def comes(self) -> bool:
        """Whether the reply comes, for which the program did not wait, in the actor's time; the program is then started
        again."""
        while self.owes() and not self.is_late():
            ready, _, _ = select.select([self.peer.connection], [], [], TURN)
            if ready:
                self.hear()
        before, self.counted = self.counted, self.said.count
        return not self.owes() and not self.is_closed and self.counted > before

    def failure(self) -> str:
        """How it failed."""
        return (
            "it closed the connection before it gave a whole reply"
            if self.is_closed
            else f"it was silent for {self.seconds:g} seconds, where a reply was due"
        )

    def hear_out(self) -> None:
        """Where it closed it may still be writing why: it has some seconds for that, once."""
        seconds, self.to_say = self.to_say if self.is_closed else 0, 0
        with contextlib.suppress(subprocess.TimeoutExpired):
            self.peer.process.wait(seconds)

    def end(self) -> None:
        self.is_over.set()
        self.listener.close()
        self.hear_out()
        self.peer.end()


class Relays:
    """The relays of a run, by the names of their actors."""

    def __init__(self, commands: dict[str, list[str]], seconds: float):
        self.of: dict[str, Relay] = {}
        try:
            for actor, command in commands.items():
                self.of[actor] = Relay(actor, command, seconds)
            for actor, relay in self.of.items():
                relay.connect()
        except PeerFault as why:
            self.end()
            raise PeerFault(f"{actor}: {why}", why.is_silent) from None

    def variables(self) -> dict[str, str]:
        """What the program is given for each actor."""
        return {"LTE_SEC_" + actor.upper().replace(" ", "_"): relay.command() for actor, relay in self.of.items()}

    def begin(self) -> None:
        for relay in self.of.values():
            relay.begin()

    def finish(self) -> None:
        for relay in self.of.values():
            relay.finish()

    def end(self) -> None:
        for relay in self.of.values():
            relay.end()

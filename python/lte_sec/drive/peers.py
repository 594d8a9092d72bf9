"""An actor that is served by another program: it is started, told frames, and ended with all that it started
(docs/FRAMES.md, A session)."""
from __future__ import annotations

import contextlib
import os
import select
import signal
import socket
import subprocess
import tempfile
import time
from typing import IO

MOST_SAID = 2000  # octets of standard error that are told
TURN = 0.5  # seconds between two looks at whether an actor that is late is at work
TO_SAY = 10  # seconds that an actor which closed its connection has to say why, if it does not end before


class PeerFault(Exception):
    """An actor failed, and how; whether it was silent for the whole time that it had."""

    def __init__(self, why: str, is_silent: bool = False):
        super().__init__(why)
        self.is_silent = is_silent


class Activity:
    """What a process and those that it has started work: the processor time that they have used, and whether one of
    them is at work or waits for a processor or a disk.

    It is read of /proc. Where that is not there nothing is known, and nobody is at work.
    """

    STATE, USED = 0, slice(
        11, 15
    )  # of the fields behind the name of a process: its own time and that of its children that have ended

    def __init__(self, process: int):
        self.process = process
        self.used, self.is_awake = 0, False

    def look(self) -> bool:
        """Whether they have worked since the last look, or wait to."""
        before, self.used, self.is_awake = self.used, 0, False
        self.add(str(self.process))
        return self.is_awake or self.used > before

    def add(self, process: str) -> None:
        try:
            with open(f"/proc/{process}/stat", "rb") as file:
                fields = file.read().rpartition(b")")[2].split()
            children = [
                child
                for task in os.listdir(f"/proc/{process}/task")
                for child in read_of(f"/proc/{process}/task/{task}/children").split()
            ]
        except OSError:
            return  # it has ended
        self.used += sum(map(int, fields[self.USED]))
        self.is_awake = self.is_awake or fields[self.STATE] in (b"R", b"D")
        for child in children:
            self.add(child)


def read_of(file: str) -> str:
    with open(file, encoding="ascii") as source:
        return source.read()


class Patience:
    """How long an actor is waited for: so many seconds in which it does not work, and as many of a processor. On a busy
    machine it may take much longer by the clock."""

    def __init__(self, process: int, seconds: float):
        self.work, self.seconds = Activity(process), seconds
        self.work.look()
        self.began = self.work.used
        self.ends = time.monotonic() + seconds

    def left(self) -> float:
        """For how long it is waited before the next look; 0 where its time is over."""
        now = time.monotonic()
        if self.work.look():
            self.ends = now + self.seconds
        if (self.work.used - self.began) / os.sysconf("SC_CLK_TCK") >= self.seconds:
            return 0
        return min(TURN, max(0.0, self.ends - now))


class Peer:
    """A program in a group of processes of its own, that serves an actor."""

    def __init__(self, command: list[str], role: str, seconds: float, is_heard: bool = False):
        """Starts it; where it is heard, what it writes to standard error goes to that of this program, and else is
        kept."""
        self.seconds = seconds
        self.connection: socket.socket | None = None
        self.said = tempfile.TemporaryFile()
        heard = None if is_heard else self.said
        try:
            self.process = subprocess.Popen(
                [*command, "serve", *role.split()],
                stdin=subprocess.DEVNULL,
                stdout=subprocess.PIPE,
                stderr=heard,
                start_new_session=True,
            )
        except OSError as why:
            self.said.close()
            raise PeerFault(f"its program did not start: {why.strerror}") from None

    def port(self) -> int:
        """The number in the first line that it prints."""
        assert self.process.stdout
        line = b""
        while not line.endswith(b"\n"):
            is_there = self.comes(self.process.stdout)
            octets = os.read(self.process.stdout.fileno(), 64) if is_there else b""
            if not octets:
                raise PeerFault(
                    "it ended and said no port" if is_there else f"it said no port within {self.seconds:g} seconds",
                    not is_there,
                )
            line += octets
        text = line.decode("ascii", "replace").removesuffix("\n")
        if not text.isdecimal() or text.startswith("0") or int(text) > 65535:
            raise PeerFault("its first line is not the number of a port")
        return int(text)

    def comes(self, source: IO[bytes] | socket.socket) -> bool:
        """Waits until there is something to read, or its end; whether there is, before the actor's patience is over.
        Mostly there is at once, and nothing is looked at."""
        if select.select([source], [], [], min(TURN, self.seconds))[0]:
            return True
        patience = Patience(self.process.pid, max(0.0, self.seconds - TURN))
        while (left := patience.left()) > 0:
            if select.select([source], [], [], left)[0]:
                return True
        return bool(select.select([source], [], [], 0)[0])

    def connect(self) -> None:
        port = self.port()
        try:
            self.connection = socket.create_connection(("127.0.0.1", port), self.seconds)
            self.connection.setsockopt(socket.IPPROTO_TCP, socket.TCP_NODELAY, 1)
        except OSError:
            raise PeerFault("nothing took a connection at the port that its program said") from None

    def send(self, body: bytes) -> None:
        """Tells it a frame. That it closed is seen where its reply is read."""
        assert self.connection
        with contextlib.suppress(ConnectionError):
            self.connection.sendall(len(body).to_bytes(2, "big") + body)

    def reply(self) -> bytes:
        """Its reply, with its length."""
        head = self.take(2, "the reply")
        return head + self.take(int.from_bytes(head, "big"), "the rest of the reply")

    def take(self, size: int, what: str) -> bytes:
        assert self.connection
        octets = b""
        while len(octets) < size:
            if not self.comes(self.connection):
                raise PeerFault(f"it was silent for {self.seconds:g} seconds where {what} was due", True)
            try:
                piece = self.connection.recv(size - len(octets))
            except ConnectionError:
                piece = b""
            if not piece:
                raise PeerFault(f"it closed the connection before {what}")
            octets += piece
        return octets

    def words(self, is_silent: bool = False) -> str:
        """The end of what it wrote to standard error; one that closed, and is not only silent, may still be writing
        why."""
        with contextlib.suppress(subprocess.TimeoutExpired):
            self.process.wait(0 if is_silent else TO_SAY)
        size = self.said.seek(0, os.SEEK_END)
        self.said.seek(max(0, size - MOST_SAID))
        return self.said.read().decode(errors="replace").strip()

    def end(self) -> None:
        """Ends it, and all that it started."""
        if self.connection:
            self.connection.close()
        with contextlib.suppress(ProcessLookupError, PermissionError):
            os.killpg(self.process.pid, signal.SIGKILL)
        self.process.wait()
        if self.process.stdout:
            self.process.stdout.close()
        self.said.close()

"""The session of an actor (docs/FRAMES.md): a port of this machine, one connection, a reply to each frame.

Nothing of this changes from one product to the next. A wrapper in another language does the same six things.
"""
from __future__ import annotations

import contextlib
import socket
import sys
from typing import Callable

from calls import PYTHON
from lte_sec.drive import frames

assert PYTHON in sys.path, "the package of this repository"

Actor = Callable[[frames.Input], frames.Reply]


def serve(role: str, starts: Callable[[frames.Input], Actor]) -> None:
    """Serves the role: `starts` is given the Setup, and answers what each further input is given to."""
    with socket.create_server(("127.0.0.1", 0)) as listener:
        print(listener.getsockname()[1], flush=True)  # 1. the port in one line, and nothing else on standard output
        connection, _ = listener.accept()  # 2. one connection
    connection.setsockopt(socket.IPPROTO_TCP, socket.TCP_NODELAY, 1)
    actor: Actor | None = None
    with connection, connection.makefile("rb") as source, contextlib.suppress(ConnectionError):
        while (body := frames.read_frame(source)) is not None:  # 3. a length of two octets, and so many
            told = frames.read_input(role, actor is None, body)  # 4. what it tells
            if actor is None:
                actor, reply = starts(told), frames.Reply()  # 5. a Setup is answered by done
            else:
                reply = actor(told)
            connection.sendall(reply.spelled())  # 6. the whole reply at once, before the next frame is read


def main(role: str, starts: Callable[[frames.Input], Actor]) -> None:
    """The program: its words are `serve` and the role."""
    if sys.argv[1:3] != ["serve", role]:
        sys.exit(f"usage: {sys.argv[0]} serve {role}")
    try:
        serve(role, starts)
    except (frames.BadFrame, NotImplementedError) as why:
        sys.exit(f"{role}: {why}")

"""A peer that only plays back: it answers the frames of a session of examples/serve with the replies kept there.

Its words are a folder, a role, the number of an exchange and what is wrong there, and then the words of `serve`. It
does this wrong where it serves that role, and puts its process's number into the folder. A run starts it often, so it
brings in little.
"""

import contextlib
import os
import signal
import socket
import sys

HERE = os.path.dirname(os.path.abspath(__file__))
# What a peer says in place of its port, by what is wrong with it.
SAYS = {
    "says no port": "port",
    "says an empty line": "",
    "says too great a port": "65536",
    "says a zero first": "08080",
    "says too many digits": "000001",
    "says a port where nobody listens": "1",
}


def frames_of(role: str) -> list[tuple[bytes, bytes]]:
    """The frames of a role's session, each with its reply."""
    with open(f"{HERE}/../serve/{role}.frames") as file:
        octets = [bytes.fromhex(line.split()[1]) for line in file if line.strip()]
    return list(zip(octets[0::2], octets[1::2]))


def take(connection: socket.socket, size: int) -> bytes:
    """So many octets of a connection, or as many as there are."""
    octets = b""
    while len(octets) < size:
        piece = connection.recv(size - len(octets))
        if not piece:
            break
        octets += piece
    return octets


def answered(connection: socket.socket, reply: bytes, how: str) -> bool:
    """Replies so, and says whether the session goes on."""
    if how == "closes":
        return False
    if how == "hangs":
        signal.pause()
    if how == "cuts":
        connection.sendall(reply[:-1])
        return False
    if how == "changes":
        reply = reply[:-1] + bytes([reply[-1] ^ 1])
    if how == "lengthens":
        reply = (len(reply) - 1).to_bytes(2, "big") + reply[2:] + b"\0"
    connection.sendall(reply)
    return True


def serve(pairs: list[tuple[bytes, bytes]], number: int, how: str) -> None:
    """One session, in which the reply with this number is wrong. It ends where the program ends it, read or not."""
    with socket.create_server(("127.0.0.1", 0)) as listener:
        print(listener.getsockname()[1], flush=True)
        connection, _ = listener.accept()
    with connection:
        connection.setsockopt(socket.IPPROTO_TCP, socket.TCP_NODELAY, 1)
        for place, (frame, reply) in enumerate(pairs):
            if take(connection, len(frame)) != frame:
                return
            if not answered(connection, reply, how if place == number else "is right"):
                return
        connection.recv(1)


def main() -> None:
    folder, wrong, number, how, word, *words = sys.argv[1:]
    open(f"{folder}/{os.getpid()}", "w").close()
    role = "-".join(words)
    if word != "serve" or role not in ("phone", "core", "station-0", "station-1"):
        sys.exit(2)
    if role != wrong:
        number, how = "0", "is right"
    if how in SAYS or how == "says nothing":
        if how in SAYS:
            print(SAYS[how], flush=True)
        signal.pause()
    elif how != "is silent":
        with contextlib.suppress(ConnectionError):
            serve(frames_of(role), int(number), how)


if __name__ == "__main__":
    main()

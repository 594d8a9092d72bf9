"""The phone of `examples/actor`, which is wrong in one way where RRC security begins. Its words are a folder, into
which it puts the numbers of its processes, and what is wrong; and then those of `serve`."""
import dataclasses
import os
import pathlib
import signal
import subprocess
import sys
import time

sys.dont_write_bytecode = True
sys.path.insert(0, str(pathlib.Path(__file__).resolve().parent.parent / "actor"))
import phone  # noqa: E402
import serving  # noqa: E402
from calls import DOWN  # noqa: E402
from lte_sec.drive.frames import Reply  # noqa: E402

FOLDER, HOW = sys.argv[1:3]


class WrongPhone(phone.Phone):
    def secured(self, pdu: bytes) -> Reply:
        reply = super().secured(pdu)
        assert reply.record
        if HOW == "dies":
            os._exit(1)
        if HOW == "falls":
            raise SystemExit("it fell\nat the third line\nof what it says")
        if HOW == "hangs":
            signal.pause()
        if HOW == "thinks":
            time.sleep(12)
        if HOW == "turns":
            assert self.radio
            return dataclasses.replace(
                reply, record=reply.record[:-4] + phone.CALLS.eia2(self.radio.rrc_int, 0, 0, DOWN, reply.record[:-4])
            )
        if HOW == "changes":
            return dataclasses.replace(reply, record=reply.record[:-1] + bytes([reply.record[-1] ^ 1]))
        return dataclasses.replace(reply, record=reply.record + b"\0") if HOW == "lengthens" else reply


def main() -> None:
    # A process of its own below it, as a product's program may have: it is not to be left either.
    helper = subprocess.Popen(["sleep", "1000"])
    for number in (os.getpid(), helper.pid):
        open(f"{FOLDER}/{number}", "w").close()
    if HOW == "says no port":
        signal.pause()
    sys.argv[1:3] = []
    serving.main("phone", WrongPhone)


if __name__ == "__main__":
    main()

"""The captures with frames left out, each alone and each pair within ten: what is right is never blamed."""
from __future__ import annotations

import copy
import os
import unittest
from collections.abc import Iterator

from lte_sec.captures.capture_files import messages
from lte_sec.captures.decoding import Message
from lte_sec.common.report import DIFFERS

from .test_spoilt import NAMES, report, stored

EVERY = 1 if os.environ.get("EVERY_PLACE") else 17  # the gate tries a sample of the pairs
NEAR = 10


def lost(found: list[Message]) -> Iterator[set[str]]:
    """The frames to leave out."""
    frames = list(dict.fromkeys(message.frame for message in found))
    for one in frames:
        yield {one}
    for place, one in enumerate(frames):
        for other in frames[place + 1 :]:
            if int(other) - int(one) <= NEAR:
                yield {one, other}


class Lost(unittest.TestCase):
    def test_what_is_right_is_not_blamed_where_frames_are_lost(self) -> None:
        tried = 0
        for name in NAMES:
            found = list(messages(stored(name)))
            sound = {line.frame for line in report(name, copy.deepcopy(found)) if line.verdict == DIFFERS}
            for place, out in enumerate(lost(found)):
                if len(out) > 1 and place % EVERY:
                    continue
                tried += 1
                with self.subTest(capture=name, without=sorted(out)):
                    lines = report(name, copy.deepcopy([message for message in found if message.frame not in out]))
                    self.assertEqual(
                        [str(line) for line in lines if line.verdict == DIFFERS and line.frame not in sound], []
                    )
        print(f"{tried} losses", end=" ", flush=True)


if __name__ == "__main__":
    unittest.main()

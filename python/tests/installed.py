"""One call of each kind of the installed package, for `package/check`: installed.py KIND. The values are those of
docs/COOKBOOK.md and examples/c."""
import sys

import lte_sec
from lte_sec.library import (
    DOWNLINK,
    UPLINK,
    DrbContext,
    MacFails,
    NasContext,
    SrbContext,
    algorithm_key,
    eea2,
    eia2,
    kenb,
    kenb_star,
    proved,
    reach,
    short_mac_i,
)


def main(kind: str) -> None:
    kasme = bytes(range(32))
    key = kenb(kasme, 0)
    assert proved() == (kind == "proved")
    assert key.hex() == "e6267359de012d9bda173d1b6fae57dec0e04e01cfcf57cb33a7573f142b8b95"
    assert kenb_star(key, 11, 101).hex().startswith("4f92e8cee01ca1f84e022ac503175c61f6792a8fe01")
    assert (
        eea2(key[:16], 7, 1, UPLINK, eea2(key[:16], 7, 1, UPLINK, b"a text")) == b"a text"
        and len(eia2(key[:16], 7, 1, UPLINK, b"a text")) == 4
    )
    keys = algorithm_key(kasme, 1, 2), algorithm_key(kasme, 2, 2)
    message = NasContext(*keys, send=300).seal(2, UPLINK, b"a NAS message")
    assert message.hex() == "278fb2a4052c0d967f5a219b39098ca13c5a77"
    assert NasContext(*keys, receive=299).open(UPLINK, message).text == b"a NAS message"
    try:
        NasContext(*keys, receive=301).open(UPLINK, message)
        raise AssertionError("a message opens under another COUNT")
    except MacFails as refused:
        assert str(refused) == "the MAC at COUNT 556 is 611fb979, and the PDU has 8fb2a405", refused
    assert SrbContext(key, key, 0).open(DOWNLINK, SrbContext(key, key, 0).send(DOWNLINK, b"RRC")).text == b"RRC"
    assert DrbContext(key, 2).receive(UPLINK, DrbContext(key, 2).send(UPLINK, b"packet")).text == b"packet"
    assert len(short_mac_i(key, b"input")) == 2
    assert reach(kasme, key, key, 0, 1, 10, 100).is_vertical
    assert lte_sec.kenb(kasme, 0) == key and [one.form for one in lte_sec.explain(key.hex(), [kasme])] == ["kenb(0)"]
    try:
        lte_sec.run("")
        raise AssertionError("a wheel runs a scenario")
    except lte_sec.TraceError as refused:
        assert "install the package seedspan" in str(refused), refused


if __name__ == "__main__":
    main(sys.argv[1])

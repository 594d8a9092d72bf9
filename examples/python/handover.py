#!/usr/bin/env python3
"""A handover from the keys to the capture, by `import lte_sec`: a script in cells, for a notebook or as it stands
(docs/PYTHON.md).

`check` runs it and compares what it prints with handover.out.
"""
from __future__ import annotations

from pathlib import Path

import lte_sec

EXAMPLES = Path(__file__).resolve().parents[1]

# %% The keys of a connection, from KASME on: KeNB at uplink NAS COUNT 0, its first NH, and KeNB* for the cell with PCI
# 11 and EARFCN-DL 101.
kasme = bytes(range(32))
kenb = lte_sec.kenb(kasme, count=0)
first_nh = lte_sec.nh(kasme, sync=kenb)
horizontal = lte_sec.kenb_star(kenb, pci=11, earfcn=101)
print("KeNB ", kenb.hex())
print("KeNB*", horizontal.hex())

# %% The same handover as a run of phone, stations and core.
scenario = EXAMPLES / "run/ordinary.toml"
run = lte_sec.run(scenario)
for change in run.changes:
    print(change.text)
assert not any(change.differs for change in run.changes)
assert {kenb, first_nh, horizontal} <= {key.octets for key in run.keys}
star = next(key for key in run.keys if key.octets == horizontal)
print(star.name, "by", star.clause, "from", run.key(star.above or 0).name, "held by", ", ".join(star.holders))

# %% What one lost, late or repeated message does to it.
tried = lte_sec.what_if(scenario, faults=1)
print(tried.counts[1])
for variant in tried.having("stuck")[:2]:
    fault = variant.faults[0]
    print(f"step {fault.step}, {fault.message} {fault.kind}: {', '.join(variant.outcomes)}")

# %% A capture of such a network.
captured = "e61a3129c8e399d6dd3cec512a9c671da2004c5e8e780d3df853bb3055ee7cba"
judged = lte_sec.check_trace(EXAMPLES / "traces/A.json.gz", [captured])
print(judged.counts, "status", judged.status)

# %% A key in a log: how it was derived.
log = f"mme: K_eNB {kenb.hex()}\nenb: K_eNB* {horizontal.hex()}\n"
for key in lte_sec.explain(log, [kasme], cells=[(11, 101)]):
    print(f"line {key.line}: {key.form}")

# %% A NAS message, sealed and opened.
keys = lte_sec.algorithm_key(kasme, 1, 2), lte_sec.algorithm_key(kasme, 2, 2)
pdu = lte_sec.NasContext(*keys, send=300).seal(2, lte_sec.UPLINK, b"a NAS message")
opened = lte_sec.NasContext(*keys, receive=299).open(lte_sec.UPLINK, pdu)
print(opened.count, opened.text.decode())
try:
    lte_sec.NasContext(*keys, receive=301).open(lte_sec.UPLINK, pdu)
except lte_sec.MacFails as refused:
    print(refused)

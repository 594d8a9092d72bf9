"""The vectors of a DRB as lines of words: number, bits, least COUNT, the first octets of the PDU, and its COUNT:
drb_lines.py < VECTORS."""
from vectors_read import document

for group in document()["testGroups"]:
    for test in group["tests"] if group["line"] == "drb" else ():
        if "count" in test["out"]:
            print(
                test["tcId"],
                test["in"]["bits"],
                test["in"]["count"],
                test["in"]["pdu"][:6].ljust(6, "0"),
                test["out"]["count"],
            )

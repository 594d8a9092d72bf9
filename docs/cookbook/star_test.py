"""Compares a product's KeNB* with the vectors of `./lte_sec vectors`: star_test.py < VECTORS. This product takes every
EARFCN-DL for two octets."""
import hmac

from vectors_read import document


def product_star(key: bytes, pci: int, earfcn: int) -> str:
    return hmac.digest(
        key, b"\x13" + pci.to_bytes(2, "big") + b"\0\2" + (earfcn & 0xFFFF).to_bytes(2, "big") + b"\0\2", "sha256"
    ).hex()


stars = next(group for group in document()["testGroups"] if group["line"] == "star")
wrong = [
    test
    for test in stars["tests"]
    if product_star(bytes.fromhex(test["in"]["key"]), test["in"]["pci"], test["in"]["earfcn"])
    != test["out"]["kenb-star"]
]
print(f"{len(wrong)} of {len(stars['tests'])} differ, first test {wrong[0]['tcId']}: {wrong[0]['comment']}")

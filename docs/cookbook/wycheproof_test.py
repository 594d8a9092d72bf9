"""Reads a file of Wycheproof with MACs (MacTest), and says how many of its tests agree with Python's HMAC:
wycheproof_test.py < FILE."""
import hmac

from vectors_read import document

file = document()
tests = [test for group in file["testGroups"] for test in group["tests"]]
agree = [
    (hmac.digest(bytes.fromhex(test["key"]), bytes.fromhex(test["msg"]), "sha256").hex() == test["tag"])
    == (test["result"] == "valid")
    for test in tests
]
print(file["algorithm"], file["schema"], sum(agree), "of", file["numberOfTests"])

"""The document of vectors that a test of the cookbook reads from standard input."""
from __future__ import annotations

import json
import sys
from typing import Any


def document() -> Any:
    """The document, which has test groups; of another text one line says what to do."""
    try:
        read = json.load(sys.stdin)
    except ValueError as fault:
        sys.exit(f"it reads a document of ./lte_sec vectors, and this is none: {fault}")
    if not isinstance(read, dict) or "testGroups" not in read:
        sys.exit("it reads a document of ./lte_sec vectors, and this one has no testGroups")
    return read

"""An actor that is our own program behind words: it puts all words that it is given into a file, and becomes the
program with the last three.

Its words are the file and the program, then any words, then those of `serve`.
"""

import json
import os
import pathlib
import sys


def main() -> None:
    file, program, *words = sys.argv[1:]
    pathlib.Path(file).write_text(json.dumps(words), encoding="utf-8")
    os.execv(program, [program, *words[-3:]])


if __name__ == "__main__":
    main()

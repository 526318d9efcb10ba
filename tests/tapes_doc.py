#!/usr/bin/env python3
"""The command table of docs/TAPES.md is the one that tools/tapes.py makes: python3 tests/tapes_doc.py [--write]"""

import os
import sys

HERE = os.path.dirname(os.path.abspath(__file__))
sys.path.insert(0, os.path.join(HERE, "..", "tools"))
sys.dont_write_bytecode = True
import tapes  # noqa: E402

PATH = os.path.join(HERE, "..", "docs", "TAPES.md")
BEGIN, END = "<!-- commands -->\n", "<!-- end of commands -->\n"


def main():
    with open(PATH, encoding="utf-8") as file:
        text = file.read()
    front, _, rest = text.partition(BEGIN)
    _, _, behind = rest.partition(END)
    wanted = front + BEGIN + "\n" + "\n".join(tapes.table()) + "\n\n" + END + behind
    if "--write" in sys.argv:
        with open(PATH, "w", encoding="utf-8") as file:
            file.write(wanted)
    elif text != wanted:
        raise SystemExit("docs/TAPES.md has another table than tools/tapes.py: python3 tests/tapes_doc.py --write")
    print(f"docs/TAPES.md: the table of {len(tapes.COMMANDS)} commands made again")


if __name__ == "__main__":
    main()

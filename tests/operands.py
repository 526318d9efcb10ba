#!/usr/bin/env python3
"""Operands are read and written by shifts and or alone (docs/DECISIONS.md, 60): python3 tests/operands.py

Tells every line of code in the crate `tape` that has a product, a quotient, a remainder or a mask. Contracts keep the product form, which is the definition.
"""

import glob
import os
import re

os.chdir(os.path.join(os.path.dirname(os.path.abspath(__file__)), ".."))
NOT_CODE = ("//", "ghost use ", "use ", "requires ", "ensures ")


def main():
    found, lines = [], 0
    for path in sorted(glob.glob("crates/tape/src/*.rt")):
        with open(path, encoding="utf-8") as file:
            for number, line in enumerate(file, 1):
                if line.strip() and not line.strip().startswith(NOT_CODE):
                    lines += 1
                    if re.search(r"[/%]|[\w)\]] ?\*| & |&=", line):
                        found.append(f"{path}:{number}: {line.strip()}")
    if found or not lines:
        raise SystemExit("\n".join(found) or "no code was found")
    print(f"{lines} lines of code in tape: operands by shifts and or alone")


if __name__ == "__main__":
    main()

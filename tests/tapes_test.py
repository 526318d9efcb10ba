#!/usr/bin/env python3
"""Listings of random and of damaged tapes make the same tapes again; refusals are told in words, and so are errors: python3 tests/tapes_test.py"""

import os
import random
import subprocess
import sys

HERE = os.path.dirname(os.path.abspath(__file__))
TOOL = os.path.join(HERE, "..", "tools", "tapes.py")
DATA = os.path.join(HERE, "..", "crates", "jsxtape", "data")
sys.path.insert(0, os.path.dirname(TOOL))
sys.dont_write_bytecode = True
import tapes  # noqa: E402


def commands(rng):
    tape = b""
    for _ in range(rng.randrange(40)):
        code = rng.choice(sorted(tapes.COMMANDS))
        size = sum(tapes.SIZES.get(kind, 1) for kind in tapes.COMMANDS[code].split()[1:])
        tape += bytes([code]) + bytes(rng.choice([0, 1, 2, 3, 7, 255]) for _ in range(size))
    return tape


# a root in a root, and what a refusal of it says: the number, the figure, and words that the answer has
ROOT = """heritage none
scope function
element 2 4
  tag 0+1
  end_attributes
  fragment 3 6
    text 0+9
  end
  text 0+1
end"""
REFUSALS = [
    (1, 65535, ["65,535 bytes"]),
    (3, 40, ["ends too soon", "byte 40, where the root tape ends"]),
    (4, 28, ["ends beyond the text", "line 7 of its listing: text 0+9", "fragment that begins at line 4, column 7"]),
    (7, 34, ["character reference", "line 9 of its listing: text 0+1", "element that begins at line 3, column 5"]),
    (10, 17, ["17 bytes"]),
    (13, 28, ["within a character", "line 7 of its listing: text 0+9"]),
    (14, 13, ["a name is empty", "line 4 of its listing: tag 0+1", "element that begins at line 3, column 5"]),
]
# spans of U+00E9, two bytes, and what a listing says of each
SPANS = [("text 0+2", '"é"'), ("text 0+3", "outside the text"), ("text 0+1", "cuts a character"), ("text 1+1", "cuts a character"), ("text 2+0", '""')]
# words of a command that is wrong, and what is said of it
ERRORS = [
    (["list", "no such file"], "no such file: No such file or directory"),
    (["hex", os.path.join(DATA, "root.bin")], "no command"),
    (["show", "zz"], "not hexadecimal: zz"),
    (["explain", os.path.join(DATA, "root.bin"), os.path.join(DATA, "text.bin"), "4", "x"], "not a number: x"),
    (["explain", os.path.join(DATA, "root.bin"), os.path.join(DATA, "text.bin"), "5", "0"], "no root is refused by 5"),
    ([], "Tapes as listings"),
]


def explanations():
    root = tapes.made(ROOT.split("\n"))
    for number, figure, words in REFUSALS:
        said = "\n".join(tapes.explained(root, b"a", number, figure))
        for word in words:
            if word not in said:
                raise SystemExit(f"{number} {figure}: no {word!r} in {said!r}")
    for line, said in SPANS:
        if tapes.listing(tapes.made([line]), "é".encode()) != [f"{line:<40}; {said}"]:
            raise SystemExit(f"{line}: not {said!r}")
    for words, said in ERRORS:
        done = subprocess.run([sys.executable, TOOL, *words], capture_output=True, text=True)
        if done.returncode != 1 or not done.stderr.startswith(said):
            raise SystemExit(f"{words}: {done.stderr!r}")


def main():
    explanations()
    rng, seen = random.Random(2026), set()
    for turn in range(20000):
        tape = commands(rng)
        if turn % 2:
            tape = tape[:rng.randrange(len(tape) + 1)] + bytes(rng.randrange(256) for _ in range(rng.randrange(4)))
        lines = tapes.listing(tape, b"some text" if turn % 3 else None)
        seen.update(line.split()[0] for line in lines)
        if tapes.made(lines) != tape:
            raise SystemExit(f"differs: {tape.hex()}")
    missing = set(tapes.NAMES) - seen
    if missing:
        raise SystemExit(f"never listed: {missing}")
    print(f"tapes: 20000 tapes listed and made again, {len(tapes.NAMES)} commands")


if __name__ == "__main__":
    main()

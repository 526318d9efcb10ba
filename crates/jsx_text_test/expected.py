#!/usr/bin/env python3
"""Makes what this test program has to print: python3 crates/jsx_text_test/expected.py [--check]

`stdin` holds texts, each ended by a byte 0, written by hand: the specification's "Sheets to try" first, then lines, white space and terminators of
every kind with the characters beside them, long runs, ill-formed texts. `stdout` is made here, by tests/rust/model.py, a second reading of the
specification, and not by the program.
"""

import os
import sys

HERE = os.path.dirname(os.path.abspath(__file__))
sys.path.insert(0, os.path.join(HERE, "..", "..", "tests"))
from expected import hold  # noqa: E402
import model  # noqa: E402

# what the program's target holds
ROOM = 512


def answered(whole, start, end):
    if model.first_ill_formed(whole[start:end]) is not None:
        return "ill-formed"
    lowering = model.Lowering(whole, None, [], False)
    span = (start, end - start)
    lowering.children([(0x50, span)])
    word = "child" if lowering.lines(span) else "no child"
    shown = lowering.calls if len(lowering.calls) <= ROOM else b""
    return model.line(f"{word} {len(lowering.calls)}", shown)


def main():
    with open(os.path.join(HERE, "stdin"), "rb") as file:
        whole = file.read()
    lines, start = [], 0
    for end in range(len(whole)):
        if whole[end] == 0:
            lines.append(answered(whole, start, end))
            start = end + 1
    hold(__file__, {"stdout": "".join(line + "\n" for line in lines).encode()}, "the answers to its texts")


if __name__ == "__main__":
    main()

#!/usr/bin/env python3
"""Makes this test's lines, and what the program has to print: python3 crates/references_test/expected.py [--check]

`stdin` is made by rule: the inputs of change request 1 and its readings, every string of at most three of the signs that references are made of, and strings around the length at
which the search for an ampersand goes from blocks to single bytes. `stdout` is made by a regular expression (tests/rust/model.py) and not by the program. Every string of at
most six signs is tried by tests/references.py.
"""

import itertools
import os
import sys

HERE = os.path.dirname(os.path.abspath(__file__))
sys.path.insert(0, os.path.join(HERE, "..", "..", "tests"))
from expected import hold  # noqa: E402
import model  # noqa: E402

SIGNS = b"&#xX+-;a1g"

READINGS = """Q & A
a && b
R&D;
&foo;
&#xD800;
&#X41;
&#-1;
&;
&#;
&#+;
&#x;
&é;
&#+65;
&#x+41;
&#xAf9;
&#xG;
&1;
&a&amp;
&amp
& amp;""".encode().split(b"\n")


def strings(most):
    """Every string of at most so many signs."""
    for count in range(most + 1):
        for signs in itertools.product(SIGNS, repeat=count):
            yield bytes(signs)


def around_blocks():
    """References and bare ampersands behind, around and before as many bytes as a block of the search has, and one more or less."""
    for count in (30, 31, 32, 33, 63, 64, 65):
        for word in (b"&a;", b"&a", b"&", b"&#x1;", b"&&a;"):
            yield b"-" * count + word
            yield word + b"-" * count + word
            yield b"&" + b"a" * count + word


def answered(strings):
    return b"".join((b"+" if model.REFERENCE.search(string) else b"-") + string + b"\n" for string in strings)


def main():
    lines = [*READINGS, *strings(3), *around_blocks()]
    hold(__file__, {"stdin": b"".join(b"?" + line + b"\n" for line in lines), "stdout": answered(lines)}, f"{len(lines)} lines")


if __name__ == "__main__":
    main()

#!/usr/bin/env python3
"""Makes what this test program has to print: python3 crates/layer_test/expected.py [--check]

The vectors of `stdin` say what they expect, so that none may differ. The random texts of src/random.rt are drawn again and judged by Python's own UTF-8
decoder, the numbers of src/numbers.rt drawn again and written by its own conversion.
"""

import os
import sys

HERE = os.path.dirname(os.path.abspath(__file__))
sys.path.insert(0, os.path.join(HERE, "..", "..", "tests"))
from expected import hold  # noqa: E402


def following(state):
    return (state * 1664525 + 1013904223) % 2**32


def piece(draw, left, plain):
    low = draw // 32 % 64
    if draw % 32 > 0:
        if left > 0:
            return 0x80 + low, left - 1
        if plain:
            return 0x20 + low, 0
    row = draw // 2048 % 32
    if row < 10:
        return 0x40 + low, 0
    if row < 18:
        return 0xC0 + low % 32, 1
    if row < 28:
        return 0xE0 + low % 16, 2
    if row < 31:
        return 0xF0 + low % 8, 3
    return 0x80 + low, 0


def text_from(state):
    state = following(state)
    length, plain = state // 65536 % 128, state // 8388608 % 4 == 0
    left, text = 0, bytearray()
    for _ in range(length):
        state = following(state)
        byte, left = piece(state // 65536, left, plain)
        text.append(byte)
    return state, bytes(text)


def answer(text):
    """0 where the text is UTF-8, else one more than the place of its first ill-formed sequence."""
    try:
        text.decode("utf-8", "strict")
        return 0
    except UnicodeDecodeError as error:
        return error.start + 1


def vectors():
    with open(os.path.join(HERE, "stdin"), encoding="utf-8") as file:
        count = sum("=" in line.split("#")[0] for line in file)
    return f"{count} vectors, 0 differ"


def texts(count=4096):
    state, well_formed, checksum = 1, 0, 0
    for _ in range(count):
        state, text = text_from(state)
        found = answer(text)
        well_formed += found == 0
        checksum = (checksum * 31 + found) % 2**32
    return f"{count} random texts, {well_formed} well-formed, checksum {checksum}"


def numbers(random=100000):
    fixed, state, states = [value << 8 * place for place in range(4) for value in range(256)] + [2**32 - 1], 1, []
    for _ in range(len(fixed) + random):
        state = following(state)
        states.append(state)
    drawn, checksum = fixed + states[len(fixed):], 0
    for byte in b"".join(number.to_bytes(4, "little") for number in drawn):
        checksum = (checksum * 31 + byte) % 2**32
    return f"{len(drawn)} numbers, 0 differ, checksum {checksum}"


if __name__ == "__main__":
    hold(__file__, {"stdout": "".join(line + "\n" for line in (vectors(), texts(), numbers())).encode()}, "checksums of texts and numbers")

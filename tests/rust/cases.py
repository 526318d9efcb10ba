"""The file of cases: what generate.py writes and what model.py, oracle and others read. python3 cases.py FILE prints it as listings.

Each case: job, text, number of roots, roots. Lengths and the number are four bytes, little-endian.
"""

import json
import os
import struct
import sys

sys.path.insert(0, os.path.join(os.path.dirname(os.path.abspath(__file__)), "..", "..", "tools"))
sys.dont_write_bytecode = True
import tapes  # noqa: E402


def packed(data):
    return struct.pack("<I", len(data)) + data


def pack(job, text, roots):
    return packed(job) + packed(text) + struct.pack("<I", len(roots)) + b"".join(map(packed, roots))


def unpack(data):
    at = 0

    def number():
        nonlocal at
        value = struct.unpack_from("<I", data, at)[0]
        at += 4
        return value

    def part():
        nonlocal at
        size = number()
        if at + size > len(data):
            raise ValueError("a case is cut short")
        at += size
        return data[at - size:at]

    while at < len(data):
        job, text = part(), part()
        yield job, text, [part() for _ in range(number())]


def main():
    with open(sys.argv[1], "rb") as file:
        for number, (job, text, roots) in enumerate(unpack(file.read())):
            print("case", number)
            print("text", json.dumps(text.decode("utf-8", "backslashreplace")))
            for word, tape in (("opening", job), *(("root", root) for root in roots)):
                print(word, *tapes.listing(tape, text), sep="\n  ")


if __name__ == "__main__":
    main()

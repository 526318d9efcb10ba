#!/usr/bin/env python3
"""Holds this test's vectors to a second reading: python3 crates/root_check_test/expected.py [--check]

`stdin` has vectors with the answers that the specification gives: the first 78 were written one by one, the last 32 by rule, each two faults of one command's spans. Here all
answers are made again by tests/rust/model.py. What the program prints behind the vectors is taken from `stdout` as it stands: this script says nothing about it.
"""

import os
import sys

HERE = os.path.dirname(os.path.abspath(__file__))
sys.path.insert(0, os.path.join(HERE, "..", "..", "tests"))
from expected import hold  # noqa: E402
import model  # noqa: E402


def answered(line):
    name, text, tape, _ = line.split("|")
    try:
        model.read_root(bytes.fromhex(tape), text.encode())
    except model.Refused as refusal:
        return "|".join([name, text, tape, "%d %d" % refusal.args])
    return "|".join([name, text, tape, "good"])


def read(name):
    with open(os.path.join(HERE, name), encoding="utf-8") as file:
        return file.read().split("\n")[:-1]


def main():
    vectors = [answered(line) for line in read("stdin")]
    rest = [line for line in read("stdout") if "|" not in line]
    files = {"stdin": vectors, "stdout": vectors + rest}
    hold(__file__, {name: "".join(line + "\n" for line in lines).encode() for name, lines in files.items()}, f"the answers of {len(vectors)} vectors")


if __name__ == "__main__":
    main()

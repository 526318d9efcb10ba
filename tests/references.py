#!/usr/bin/env python3
"""Holds the proved search for character references to a regular expression: python3 tests/references.py [--instructions]

Tried are every string of at most six signs out of & # x X + - ; a 1 g, and long ones: many ampersands, many names without a semicolon, a name over the whole text. The program is
crates/references_test/out/references_test, which `rt run` in that crate's folder builds, and `rt ci`; the regular expression is that of tests/rust/model.py. --instructions has valgrind count the instructions of
long ones at two lengths, over those of a text without an ampersand, and prints them for a byte: a search that is one walk has the same figure at both.
"""

import importlib.util
import pathlib
import re
import subprocess
import sys
import tempfile

TOP = pathlib.Path(__file__).resolve().parent.parent
PROGRAM = TOP / "crates/references_test/out/references_test"
# what the program reads at once
ROOM = 65536
LONG = {
    "letters": lambda size: b"a" * size,
    "ampersands": lambda size: b"&" * size,
    "ampersands, spaces": lambda size: b"& " * (size // 2),
    "names of 4 letters": lambda size: b"&aaaa" * (size // 5),
    "names of 400 letters": lambda size: (b"&" + b"a" * 399) * (size // 400),
    "one name": lambda size: b"&" + b"a" * (size - 1),
    "numbers": lambda size: b"&#x+1f" * (size // 6),
    "far ampersands": lambda size: (b"-" * 99 + b"&") * (size // 100),
}


def module(path):
    spec = importlib.util.spec_from_file_location("expected_references", path)
    loaded = importlib.util.module_from_spec(spec)
    spec.loader.exec_module(loaded)
    return loaded


def run(strings):
    lines = b"".join(b"?" + string + b"\n" for string in strings)
    return subprocess.run([PROGRAM], input=lines, capture_output=True, check=True).stdout


def batches(strings):
    """Lists of strings that the program can read at once."""
    batch, size = [], 0
    for string in strings:
        if size + len(string) + 2 > ROOM:
            yield batch
            batch, size = [], 0
        batch.append(string)
        size += len(string) + 2
    yield batch


def compare(expected):
    tried = found = 0
    long = [make(60000) + end for make in LONG.values() for end in (b"", b";", b"&a;", b" ;")]
    for batch in (*batches(expected.strings(6)), *([string] for string in long)):
        answers = expected.answered(batch)
        if run(batch) != answers:
            raise SystemExit(f"differs among {len(batch)} strings from {batch[0][:40]!r} on")
        tried += len(batch)
        found += len(re.findall(rb"^\+", answers, re.M))
    print(f"{tried} strings, {found} with a reference: as the regular expression says")


def counted(string):
    with tempfile.NamedTemporaryFile() as file:
        words = ["valgrind", "--tool=callgrind", f"--callgrind-out-file={file.name}", PROGRAM]
        said = subprocess.run(words, input=b"?" + string + b"\n", capture_output=True, check=True).stderr
    return int(re.search(rb"Collected : (\d+)", said)[1])


def main():
    if sys.argv[1:] == ["--instructions"]:
        plain = {size: counted(LONG["letters"](size)) for size in (30000, 60000)}
        for name, make in LONG.items():
            figures = [f"{(counted(make(size)) - plain[size]) / size:9.3f}" for size in plain]
            print(f"{name:<22}" + "".join(figures))
        return
    compare(module(TOP / "crates/references_test/expected.py"))


if __name__ == "__main__":
    main()

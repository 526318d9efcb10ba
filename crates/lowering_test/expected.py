#!/usr/bin/env python3
"""Makes this test's vectors, and what the program has to print: python3 crates/lowering_test/expected.py [--check]

Reads vectors.txt beside itself and makes `stdin` and `stdout`. The answers are those of tests/rust/model.py and tests/rust/states.py, second readings of the
specification in Python, and not the program's.
"""

import json
import os
import sys

HERE = os.path.dirname(os.path.abspath(__file__))
sys.path.insert(0, os.path.join(HERE, "..", "..", "tests"))
from expected import hold  # noqa: E402
import model  # noqa: E402
import states  # noqa: E402
import tapes  # noqa: E402


class Vector:
    def __init__(self, name):
        self.name, self.rooms, self.opening, self.replaced, self.roots = name, [], [], [], []
        self.text = self.then = None


def bytes_in(words):
    """A text: a string, `hex` and bytes, or `zeros` and how many."""
    kind, _, rest = words.partition(" ")
    if kind == "hex":
        return bytes.fromhex(rest)
    return bytes(int(rest)) if kind == "zeros" else json.loads(words).encode()


def vectors():
    found, lines = [], None
    with open(os.path.join(HERE, "vectors.txt"), encoding="utf-8") as file:
        for line in file:
            word, _, rest = line.rstrip("\n").partition(" ")
            if word == "vector":
                found.append(Vector(rest))
            elif word == "targets":
                found[-1].rooms = [int(room) for room in rest.split()]
            elif word in ("text", "then"):
                setattr(found[-1], word, bytes_in(rest))
            elif word == "state":
                place, replacement = rest.split()
                found[-1].replaced.append((int(place), bytes.fromhex(replacement)))
            elif word == "opening":
                lines = found[-1].opening
            elif word == "root":
                lines = bytes_in(rest) if rest else []
                found[-1].roots.append(lines)
            elif word == "" and rest:
                lines.append(rest)
    for vector in found:
        vector.opening = tapes.made(vector.opening)
        vector.roots = [root if isinstance(root, bytes) else tapes.made(root) for root in vector.roots]
        yield vector


# ---- a vector's line of `stdin`


def field(data):
    return f"*{len(data)}" if len(data) > 4 and not any(data) else data.hex()


def given(v):
    text = field(v.text) + (">" + field(v.then) if v.then is not None else "")
    replaced = ",".join(f"{place} {replacement.hex()}" for place, replacement in v.replaced)
    roots = [field(root) for root in v.roots] + [""] * (2 - len(v.roots))
    return "|".join([v.name, v.opening.hex(), text, replaced, *map(str, v.rooms), *roots])


# ---- and of `stdout`


def opened(v):
    """The state behind the opening, and its notices."""
    settings, told = model.open_job(v.opening, v.text, v.rooms[1])
    data = bytearray(states.packed(states.State(settings, notices=len(told))))
    for place, replacement in v.replaced:
        data[place:place + len(replacement)] = replacement
    return states.unpacked(bytes(data)), told


def lowered(text, state, root, rooms):
    """The lowering of an accepted root."""
    model.check_lengths(text, root)
    if states.is_forged(text, state) or state.calls > rooms[0] or state.notices > rooms[1]:
        raise model.Refused(12, 0)
    allowed, node = model.read_root(root, text)
    lowering = model.Lowering(text, state.settings, [thing for thing, _ in state.records], allowed)
    lowering.node(node)
    if len(lowering.bindings) > states.MOST:
        raise model.Refused(9, states.MOST)
    if state.calls + len(lowering.calls) > rooms[0]:
        raise model.Refused(10, len(lowering.calls))
    if state.notices + len(lowering.notices) > rooms[1]:
        raise model.Refused(11, len(lowering.notices))
    return lowering


def answered(v):
    """What the program prints for a vector."""
    targets = [bytearray(b"\xee" * room) for room in v.rooms]
    line = v.name + ":"
    try:
        state, told = opened(v)
    except model.Refused as refusal:
        return line + " opening refused %d %d" % refusal.args + "; " + model.line("notices:", targets[1])
    text = v.text if v.then is None else v.then
    targets[1][:len(told)] = told
    for root in v.roots:
        try:
            lowering = lowered(text, state, root, v.rooms)
        except model.Refused as refusal:
            line += " refused %d %d, state kept" % refusal.args
            continue
        line += " accepted, state moved"
        for target, fill, content in zip(targets, (state.calls, state.notices), (lowering.calls, lowering.notices)):
            target[fill:fill + len(content)] = content
        records = [(thing, number) for number, thing in enumerate(lowering.bindings)]
        state = states.State(state.settings, records, state.calls + len(lowering.calls), state.notices + len(lowering.notices))
    line += "; " + model.line(f"calls {state.calls}:", targets[0]) + "; " + model.line(f"notices {state.notices}:", targets[1])
    return line + "; " + written(text, state, targets[2])


def written(text, state, target):
    """The records, behind all roots."""
    try:
        model.check_lengths(text, b"")
        if states.is_forged(text, state):
            raise model.Refused(12, 0)
        records = bytes(model.records_of(state.settings, [thing for thing, _ in state.records]))
        if len(records) > len(target):
            raise model.Refused(10, len(records))
    except model.Refused as refusal:
        return model.line("records refused %d %d:" % refusal.args, target)
    return model.line(f"records {len(records)}:", records + target[len(records):])


def main():
    sys.setrecursionlimit(10000)
    every = list(vectors())
    made = {name: "".join(line(v) + "\n" for v in every).encode() for name, line in (("stdin", given), ("stdout", answered))}
    hold(__file__, made, f"{len(every)} vectors")


if __name__ == "__main__":
    main()

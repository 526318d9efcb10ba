#!/usr/bin/env python3
"""Makes what this test program has to print: python3 crates/store_test/expected.py [--check]

The cases are those of src/main.rt, in its order. What they answer is made here, by tests/rust/model.py (the record tape) and tests/rust/states.py (what
is forged), second readings of the specification, and not by the program.
"""

import os
import sys

HERE = os.path.dirname(os.path.abspath(__file__))
sys.path.insert(0, os.path.join(HERE, "..", "..", "tests"))
from expected import hold  # noqa: E402
import model  # noqa: E402
from model import CREATE, DEV, FILE, FRAGMENT, JSX, JSXS  # noqa: E402
from states import MOST, State, is_forged  # noqa: E402

FILE_NAME = (None, FILE)
LINES = []


# ---- states


def settings(mode, dev=0, source=0, **more):
    s, _ = model.open_job(bytes([0x61, 0x01 | source << 2 | dev << 4 | {"module": 0x80, "script": 0, "classic": 0x08}[mode], 0]), b"")
    # the program's states are no opening's: development turns no plugin on there
    s.source, s.dev = source, dev
    for name, value in more.items():
        setattr(s, name, value)
    return s


def bound(s, *things):
    """A state in which these are bound, each once."""
    return State(s, [(thing, number) for number, thing in enumerate(dict.fromkeys(things))])


def put(state, thing, binding):
    """With a record as it is given."""
    return State(state.settings, state.records + [(thing, binding)])


def counted(state, count, calls=0, notices=0):
    """With these numbers, whatever its records are. Those behind the ones in use are file names numbered 0."""
    more = [(FILE_NAME, 0)] * (min(count, MOST) - len(state.records))
    return State(state.settings, (state.records + more)[:count], calls, notices, count)


# ---- lines


def written(label, state, room, text=b""):
    target = b"\xee" * room
    records = bytes(model.records_of(state.settings, [thing for thing, _ in state.records]))
    ill = model.first_ill_formed(text)
    if len(text) > model.LIMIT:
        answer = (1, model.LIMIT)
    elif ill is not None:
        answer = (2, ill)
    elif is_forged(text, state):
        answer = (12, 0)
    elif len(records) > room:
        answer = (10, len(records))
    else:
        LINES.append(model.line(f"{label}: accepted {len(records)}:", records + target[len(records):]))
        return
    LINES.append(model.line("%s: refused %d %d:" % (label, *answer), target))


def forged(label, state, call_room, notice_room):
    """Whether a root into targets of these sizes turns the state away."""
    over = state.calls > call_room or state.notices > notice_room
    LINES.append(f"{label}: {'forged' if over or is_forged(b'', state) else 'sound'}")


def added(label, state, thing):
    """The number that a thing gets, or that there is no room for it, and how many records there are then."""
    things = [each for each, _ in state.records]
    if state.count > MOST or thing not in things and state.count == MOST:
        LINES.append(f"{label}: full of {state.count}")
    elif thing in things:
        LINES.append(f"{label}: number {things.index(thing)} of {state.count}")
    else:
        LINES.append(f"{label}: number {state.count} of {state.count + 1}")


# ---- the cases

CREATED, FRAGMENTED, JSXED = (0, CREATE), (1, FRAGMENT), (1, JSX)
REQUIRED = [(0, None), (1, None)]


def tapes(module, development, script, classic):
    written("nothing bound", bound(module), 1)
    written("jsx", bound(module, JSXED), 6)
    written("jsx twice", bound(module, JSXED, JSXED), 6)
    written("createElement first", bound(module, CREATED, JSXED), 11)
    written("createElement last", bound(module, JSXED, CREATED), 11)
    written("fragment, then jsx", bound(module, FRAGMENTED, JSXED), 9)
    written("all four names", bound(module, JSXED, CREATED, FRAGMENTED, (1, JSXS)), 17)
    written("require 1, then 0", bound(script, REQUIRED[1], REQUIRED[0]), 9)
    written("require 0, then 1", bound(script, *REQUIRED), 9)
    written("file name in a module", bound(development, FILE_NAME, (1, DEV)), 9)
    written("file name in a script", bound(script, FILE_NAME, REQUIRED[1]), 8)
    written("file name in classic", bound(classic, FILE_NAME), 4)
    both = bound(script, REQUIRED[1], REQUIRED[0])
    written("exactly full", both, 8)
    written("one byte short", both, 7)
    written("no room", both, 0)
    written("nothing bound, no room", bound(script), 0)


def order(forged_state):
    written("1 before 12", forged_state, 2, bytes(65536))
    written("2 before 12", forged_state, 2, b"a\xc3")
    written("12 before 10", forged_state, 0)


def records(module, script):
    one = bound(module, JSXED)
    written("numbered from 1", put(bound(module), JSXED, 1), 2)
    written("a gap", put(one, FRAGMENTED, 2), 2)
    written("a number twice", put(one, FRAGMENTED, 0), 2)
    written("a named import twice", put(one, JSXED, 1), 2)
    written("a require twice", put(bound(script, REQUIRED[1]), REQUIRED[1], 1), 2)
    written("a file name twice", put(bound(script, FILE_NAME), FILE_NAME, 1), 2)
    written("9 records", counted(one, 9), 2)
    written("2 ^ 64 - 1 records", counted(one, 2**64 - 1), 2)
    written("8 records", counted(one, 8), 2)
    written("records behind the count are none", counted(put(one, (9, 9), 9), 1), 6)


def modes(module, development, script, classic):
    for label, s, thing in (
        ("a require in a module", module, REQUIRED[0]),
        ("name 5", module, (1, 5)),
        ("createElement of the runtime", module, (1, CREATE)),
        ("jsx of the import source", module, (0, JSX)),
        ("file name without the plugin", module, FILE_NAME),
        ("jsxDEV without development", module, (1, DEV)),
        ("jsx in development", development, JSXED),
        ("jsxs in development", development, (1, JSXS)),
        ("a named import in a script", script, JSXED),
        ("source 2", script, (2, None)),
        ("a named import in classic", classic, CREATED),
        ("a require in classic", classic, REQUIRED[0]),
    ):
        written(label, bound(s, thing), 2)


def spans():
    text = b"a\xc3\xa9"
    for label, name, span in (
        ("pragma outside", "pragma", (0, 4)),
        ("fragment pragma outside", "frag", (0, 4)),
        ("TypeScript pragma outside", "ts", (0, 4)),
        ("its fragment pragma outside", "tsfrag", (0, 4)),
        ("import source outside", "importing", (0, 4)),
        ("far outside", "importing", (65535, 65535)),
        ("cut at its start", "importing", (2, 1)),
        ("cut at its end", "importing", (0, 2)),
        ("empty within a character", "importing", (2, 0)),
        ("empty at the end", "importing", (3, 0)),
        ("the whole text", "importing", (0, 3)),
    ):
        written(label, bound(settings("module", **{name: span})), 2, text)


def forms():
    right = "identifier.1"
    for label, mode, *given in (
        ("right forms", "classic", right, right),
        ("another root", "classic", "this.1", right),
        ("another tail", "classic", "identifier.2", right),
        ("another form of the fragment", "classic", right, "default.0"),
        ("no forms in a module", "module", "default.0", "default.0"),
        ("a form in a module", "module", right, "default.0"),
    ):
        written(label, bound(settings(mode, pragma=(0, 3), frag=(0, 3), forms=given)), 2, b"a.b")


def fills(module):
    none = bound(module)
    written("fills without a target", counted(none, 0, 9, 9), 1)
    forged("fills at their targets", counted(none, 0, 8, 4), 8, 4)
    forged("call fill above its target", counted(none, 0, 9, 4), 8, 4)
    forged("notice fill above its target", counted(none, 0, 8, 5), 8, 4)
    forged("9 records, empty targets", counted(none, 9), 0, 0)


def adding(module):
    one, two = bound(module, JSXED), bound(module, JSXED, FRAGMENTED)
    added("the first", bound(module), JSXED)
    added("a second", one, FRAGMENTED)
    added("the first again", two, JSXED)
    added("the eighth", counted(one, 7), FRAGMENTED)
    added("a ninth", counted(one, 8), FRAGMENTED)
    added("one of eight", counted(one, 8), JSXED)
    added("beyond eight", counted(one, 9), JSXED)


def main():
    module, development = settings("module"), settings("module", dev=1, source=1)
    script, classic = settings("script", source=1), settings("classic", source=1)
    tapes(module, development, script, classic)
    order(put(bound(module), FILE_NAME, 0))
    records(module, script)
    modes(module, development, script, classic)
    spans()
    forms()
    fills(module)
    adding(module)
    hold(__file__, {"stdout": "".join(line + "\n" for line in LINES).encode()}, "the answers to its states")


if __name__ == "__main__":
    main()

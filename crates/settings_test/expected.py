#!/usr/bin/env python3
"""Makes what this test program has to print: python3 crates/settings_test/expected.py [--check]

`stdin` is written by hand: jobs in words, from the specification's sentences. `stdout` is made here, by tests/rust/model.py, a second reading of the
specification, and not by the program.
"""

import itertools
import os
import re
import sys

HERE = os.path.dirname(os.path.abspath(__file__))
sys.path.insert(0, os.path.join(HERE, "..", "..", "tests"))
from expected import hold  # noqa: E402
import model  # noqa: E402
import states  # noqa: E402

COMMANDS = {"c": 0x60, "p": 0x62, "f": 0x63, "i": 0x64}
ESCAPES = {b"n": b"\n", b"r": b"\r", b"t": b"\t", b"v": b"\x0b", b"f": b"\x0c"}
ROOM, NOTICE_ROOM = 65536, 16
PARTS = ["this", "import", "meta", "h", "class", "1x", ""]


def quoted(letters):
    """What stands in quotes, without its escapes."""
    def meant(found):
        return bytes([int(found[1], 16)]) if found[1] else ESCAPES.get(found[2], found[2])

    return re.sub(rb"\\(?:x(..)|(.))", meant, letters, flags=re.S)


def job_of(line):
    """Opening tape and text of a line."""
    text, tape = b"", bytes([0x61, int(line[2:4], 16), int(line[0:2], 16)])
    for word, letters in re.findall(rb' *(\w+) "((?:[^"\\]|\\.)*)"', line[4:]):
        said = quoted(letters)
        tape += bytes([COMMANDS.get(word.decode()[0], 0)]) + model.put((len(text), len(said)))
        text += said
    return tape, text


def room_of(line):
    """The size of the notice target."""
    said = re.search(rb" room ([0-9a-f])$", line)
    return int(said[1], 16) if said else NOTICE_ROOM


def form_words(form):
    root, _, tail = form.partition(".")
    return b"" if root in ("-", "default") else f" = {'import.meta' if root == 'importmeta' else root} + {tail}".encode()


def notice_words(told):
    return model.line("; notices", told).encode() if told else b""


def answered(tape, text, room=NOTICE_ROOM):
    try:
        s, told = model.open_job(tape, text, room)
    except model.Refused as refusal:
        return b"    refused %d %d" % refusal.args
    kind = states.mode(s)
    words = [b"    " + (kind if kind == "classic" else "automatic " + kind).encode()]
    for name, word in (("pure", b"pure"), ("plugin", b"jsx_plugin"), ("self", b"self"), ("source", b"source"), ("dev", b"development"), ("throw", b"throw_if_namespace"), ("pure_option", b"pure_option")):
        words += [b", " + word] if getattr(s, name) else []
    for name, word, form in (("pragma", b"pragma", s.forms[0]), ("frag", b"fragment", s.forms[1]), ("importing", b"importSource", "-"), ("ts", b"TypeScript pragma", "-"), ("tsfrag", b"TypeScript fragment", "-")):
        span = getattr(s, name)
        if span is not None:
            words.append(b'; %s "%s"' % (word, text[span[0]:span[0] + span[1]]))
        words.append(form_words(form))
    return b"".join(words) + notice_words(told)


def long(pairs, pair, rest):
    """A classic job with one comment: so many pairs of bytes, and then the rest."""
    text = (pair * pairs + rest)[:ROOM]
    return answered(b"\x61\x09\x00\x60\x00\x00" + model.le(len(text) % ROOM), text)


def pragmas():
    """Every pragma of up to four parts, the first part changing first."""
    for count in (1, 2, 3, 4):
        for parts in itertools.product(PARTS, repeat=count):
            yield ".".join(reversed(parts))


def read(pragma):
    """A text with a pragma behind an @, and how a classic job reads it."""
    text = b"@" + pragma.encode()
    s, told = model.open_job(b"\x61\x08\x00\x62" + model.put((1, len(pragma))), text)
    return text + form_words(s.forms[0]) + notice_words(told)


def main():
    lines = []
    with open(os.path.join(HERE, "stdin"), "rb") as file:
        for line in file.read().split(b"\n"):
            if len(line) >= 4:
                lines.append(line)
                lines += [answered(*job_of(line), room_of(line))] if line[:1] != b"#" else []
    lines += [
        b"# ---- long comments: 60,000 at signs, then a pragma",
        long(30000, b"@@", b" @jsx h.g"),
        b"# 30,000 at signs, each behind a space, or behind a letter",
        long(30000, b" @", b" @jsx h.g"),
        long(30000, b"x@", b" @jsx h.g"),
        b"# 65,535 bytes, and one more",
        long(32763, b"@@", b" @jsx h.g"),
        long(32763, b"@@", b" @jsx h.gg"),
        b"# ---- behind an @, every pragma of up to four parts out of this, import, meta, h, class, 1x and an empty one",
        *map(read, pragmas()),
    ]
    hold(__file__, {"stdout": b"\n".join(lines) + b"\n"}, "the answers to its jobs")


if __name__ == "__main__":
    main()

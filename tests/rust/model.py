#!/usr/bin/env python3
"""A second reading of the specification, in the small: python3 model.py CASES [--notices ROOM]

Written from the specification's text, by someone who had read the Rust, as a check on the bridge and the generator: no wholly independent
reading. It claims nothing about the proved program. Prints what oracle prints, the opening's notices, which the Rust has none of, and each refusal with its
number and figure. ROOM is that of the target for notices (65,536 bytes).
"""

import argparse
import re
import sys

from cases import unpack

LIMIT, TARGET, DEEPEST, MOST = 65535, 65536, 64, 4294967295
WHITE = set("\t\x0b\x0c\ufeff \xa0\u1680\u202f\u205f\u3000") | {chr(c) for c in range(0x2000, 0x200B)}
ENDS = set("\n\r\u2028\u2029")
RESERVED = set(
    "await break case catch class const continue debugger default delete do else enum export extends false finally for "
    "function if import in instanceof new null return super switch this throw true try typeof var void while with yield".split()
)
# a character reference, by change request 1
REFERENCE = re.compile(rb"&(?:[A-Za-z0-9]+|#\+?[0-9]+|#x\+?[0-9A-Fa-f]+);")
FRAGMENT, CREATE, JSX, JSXS, DEV, FILE = range(6)


class Refused(Exception):
    pass


def first_ill_formed(text):
    try:
        text.decode("utf-8")
    except UnicodeDecodeError as error:
        return error.start
    return None


def check_lengths(text, tape):
    if len(text) > LIMIT or len(tape) > LIMIT:
        raise Refused(1, LIMIT)
    ill = first_ill_formed(text)
    if ill is not None:
        raise Refused(2, ill)


def span_faults(text, span, is_name):
    """All that is wrong with a span, by number: it ends beyond the text, it cuts a character, it is an empty name."""
    def cuts(place):
        return place < len(text) and text[place] & 0xC0 == 0x80

    start, end = span[0], span[0] + span[1]
    return [4] * (end > len(text)) + [13] * (cuts(start) or cuts(end)) + [14] * (is_name and span[1] == 0)


class Tape:
    """Reads one command at a time. `operands` is a string of b (u8), e (u16), w (u32), S (span), N (name)."""

    def __init__(self, tape, text):
        self.tape, self.text, self.at = tape, text, 0

    def command(self, allowed):
        self.start = self.at
        if self.at == len(self.tape):
            raise Refused(3, len(self.tape))
        code = self.tape[self.at]
        if code not in allowed:
            raise Refused(3, self.start)
        self.at += 1
        return code

    def operands(self, kinds, bad=None):
        sizes = {"b": 1, "e": 2, "w": 4, "S": 4, "N": 4}
        if self.at + sum(sizes[kind] for kind in kinds) > len(self.tape):
            raise Refused(3, len(self.tape))
        values = []
        for kind in kinds:
            raw = self.tape[self.at:self.at + sizes[kind]]
            self.at += sizes[kind]
            if kind in "SN":
                values.append((int.from_bytes(raw[:2], "little"), int.from_bytes(raw[2:], "little")))
            else:
                values.append(int.from_bytes(raw, "little"))
        if bad and bad(*values):
            raise Refused(3, self.start)
        spans = [(kind, value) for kind, value in zip(kinds, values) if kind in "SN"]
        for number in (4, 13, 14):  # the number decides, not which of two spans has the fault
            if any(number in span_faults(self.text, span, kind == "N") for kind, span in spans):
                raise Refused(number, self.start)
        return values

    def letters(self):
        (span,) = self.operands("S")
        if REFERENCE.search(self.text[span[0]:span[0] + span[1]]):
            raise Refused(7, self.start)
        return span


class Settings:
    pass


def open_job(job, text, room=TARGET):
    """The settings, and the opening's notices."""
    check_lengths(text, job)
    tape = Tape(job, text)
    tape.command({0x61})
    (flags,) = tape.operands("e", lambda flags: flags > 0xFF)
    allowed = [0x62, 0x63, 0x64, 0x60]
    options, comments = {}, []
    while tape.at < len(job):
        code = tape.command(allowed)
        (span,) = tape.operands("S")
        if code == 0x60:
            comments.append(span)
            allowed = [0x60]
        else:
            options[code] = span
            allowed = allowed[allowed.index(code) + 1:]
    s = Settings()
    s.plugin, s.self, s.source, s.classic, s.dev, s.throw, s.pure_option, s.module = [flags >> bit & 1 for bit in range(8)]
    s.pragma, s.frag, s.importing = options.get(0x62), options.get(0x63), options.get(0x64)
    s.ts = s.tsfrag = None
    if s.dev:  # conform
        s.plugin = s.self = s.source = 1
    for span in comments:
        for keyword, value in pragmas_in(text, span):
            said = text[value[0]:value[0] + value[1]]
            if keyword == b"":
                s.ts = value
                if s.plugin or s.dev:
                    s.pragma = value
            elif keyword == b"Frag":
                s.tsfrag = value
                if s.plugin or s.dev:
                    s.frag = value
            elif keyword == b"ImportSource":
                s.importing = value
            elif said in (b"classic", b"automatic"):
                s.classic = int(said == b"classic")
    s.pure = int(bool(s.pure_option) or s.importing is None and s.pragma is None)
    if s.classic:
        for span in (s.pragma, s.frag):
            for place in range(span[0], span[0] + span[1]) if span else ():
                if text[place] > 0x7F:
                    raise Refused(5, place)
    s.forms = [form_of(text, span) if s.classic else "-" for span in (s.pragma, s.frag)]
    failing = [failing_part(text, span) for span in (s.pragma, s.frag)] if s.classic else []
    notices = b"".join(b"\xc2" + put(part) for part in failing if part is not None)
    if len(notices) > room:
        raise Refused(11, len(notices))
    return s, notices


def pragmas_in(text, span):
    at, end = span[0], span[0] + span[1]
    while True:
        sign = text.find(b"@", at, end)
        if sign < 0:
            return
        if sign > at and text[sign - 1] not in b" \t\r\n*" or not text.startswith(b"@jsx", sign, end):
            at = sign + 1
            continue
        word = stop = sign + 4
        while stop < end and text[stop] not in b" \t":
            stop += 1
        if stop == end:
            return
        keyword, at = text[word:stop], stop + 1
        if keyword not in (b"", b"Frag", b"ImportSource", b"Runtime"):
            continue
        while at < end and text[at] in b" \t":
            at += 1
        start = at
        while at < end and text[at] not in b"\t\n\x0b\x0c\r ":
            at += 1
        if start == at:
            return
        yield keyword, (start, at - start)
        at = min(at + 1, end)


def parts_of(text, span):
    return text[span[0]:span[0] + span[1]].decode().split(".")


def first_failing(parts):
    """Which part of a pragma fails first; None where it is valid. The empty pragma has one part, which is no name."""
    root, *tail = parts
    if root == "import":
        if tail[:1] != ["meta"]:
            return 0
    elif root != "this" and (root in RESERVED or not is_name(root)):
        return 0
    return next((number for number, part in enumerate(tail, 1) if not is_name(part)), None)


def failing_part(text, span):
    """The first part of a pragma that fails, as a span of the text; None where the pragma is absent or valid."""
    parts = [] if span is None else parts_of(text, span)
    number = first_failing(parts) if parts else None
    if number is None:
        return None
    return span[0] + sum(len(part) + 1 for part in parts[:number]), len(parts[number])


def form_of(text, span):
    """The form that the settings have: an absent or invalid pragma falls back to the default."""
    if span is None or failing_part(text, span) is not None:
        return "default.0"
    root, *tail = parts_of(text, span)
    if root == "import":
        return f"importmeta.{len(tail) - 1}"
    return f"{root if root == 'this' else 'identifier'}.{len(tail)}"


def is_name(part):
    letters = "abcdefghijklmnopqrstuvwxyzABCDEFGHIJKLMNOPQRSTUVWXYZ$_"
    return part != "" and part[0] in letters and all(c in letters + "0123456789" for c in part)


# ---- root tapes

VALUES, CHILDREN = {0x40, 0x41, 0x42, 0x43, 0x10, 0x11}, {0x50, 0x42, 0x43, 0x51, 0x10, 0x11, 0x1F}
ATTRIBUTES = {0x30, 0x31, 0x32, 0x33, 0x1E}


def read_root(root, text):
    check_lengths(text, root)
    tape = Tape(root, text)
    tape.command({0x01})
    (heritage,) = tape.operands("b", lambda heritage: heritage > 2)
    deciding = None
    while True:
        code = tape.command({0x02} if deciding is None else {0x02, 0x10, 0x11})
        if code != 0x02:
            break
        (kind,) = tape.operands("b", lambda kind: kind > 3)
        if deciding is None and kind >= 2:
            deciding = kind
    node = read_node(tape, code, 1)
    if tape.at < len(root):
        raise Refused(3, tape.at)
    return heritage != 2 or deciding != 2, node


def read_node(tape, code, depth):
    line, column = tape.operands("ww")
    if depth > DEEPEST:
        raise Refused(6, tape.start)
    if MOST in (line, column):
        raise Refused(8, tape.start)
    name, attributes = None, []
    if code == 0x10:
        name, attributes = read_name(tape)
        attributes = read_attributes(tape, attributes, depth)
    children = []
    while True:
        code = tape.command(CHILDREN)
        if code == 0x1F:
            return name, attributes, children, (line, column)
        if code in (0x10, 0x11):
            children.append((code, read_node(tape, code, depth + 1)))
        elif code == 0x50:
            children.append((code, tape.letters()))
        else:
            children.append((code, *tape.operands("" if code == 0x43 else "e")))


def read_name(tape):
    """The name, and the attribute command that was read to see its end, if any."""
    code = tape.command({0x20, 0x21, 0x22, 0x23})
    name = [(code, *tape.operands({0x20: "N", 0x21: "N", 0x22: "", 0x23: "NN"}[code]))]
    while True:
        after = tape.command(ATTRIBUTES | {0x25} if code in (0x21, 0x22) else ATTRIBUTES)
        if after != 0x25:
            return name, after
        name.append((0x25, *tape.operands("N")))


def read_attributes(tape, code, depth):
    attributes = []
    while code != 0x1E:
        if code in (0x30, 0x31):
            names = tape.operands("N" if code == 0x30 else "NN")
            value = tape.command(VALUES)
            if value in (0x10, 0x11):
                value = (value, read_node(tape, value, depth + 1))
            elif value == 0x41:
                value = (value, tape.letters())
            else:
                value = (value, *tape.operands("e" if value == 0x42 else ""))
            attributes.append((code, names, value))
        else:
            (number,) = tape.operands("e")
            properties = []
            while code == 0x33:
                inner = tape.command({0x34, 0x35, 0x36})
                if inner == 0x35:
                    break
                properties.append(tape.operands("e" if inner == 0x34 else "eS"))
            attributes.append((code, number, properties))
        code = tape.command(ATTRIBUTES)
    return attributes


# ---- lowering


def le(value, size=2):
    return value.to_bytes(size, "little")


def put(span):
    return le(span[0]) + le(span[1])


class Lowering:
    def __init__(self, text, settings, bindings, self_allowed):
        self.text, self.s, self.bindings = text, settings, list(bindings)
        self.self_allowed = self_allowed
        self.calls, self.notices = bytearray(), bytearray()

    def said(self, span):
        return self.text[span[0]:span[0] + span[1]]

    def binding(self, thing):
        if thing not in self.bindings:
            self.bindings.append(thing)
        return self.bindings.index(thing)

    def emit(self, *parts):
        for part in parts:
            self.calls += bytes([part]) if isinstance(part, int) else part

    def string(self, *pieces):
        self.emit(0x8A)
        for piece in pieces:
            if isinstance(piece, int):
                self.emit(piece)
            elif piece[1]:
                self.emit(0x8B, put(piece))
        self.emit(0x8D)

    def is_key(self, attribute):
        return attribute[0] == 0x30 and self.said(attribute[1][0]) == b"key"

    def node(self, node):
        name, attributes, children, position = node
        seen, fallback = False, False
        for attribute in attributes:
            seen = seen or attribute[0] in (0x32, 0x33)
            fallback = fallback or seen and self.is_key(attribute)
        classic = self.s.classic or fallback
        self.emit(0x80, int(not classic))
        count = sum(self.survives(child) for child in children)
        if classic:
            self.classic(name, attributes, children, position)
        else:
            self.automatic(name, attributes, children, position, count)
        self.emit(0x9E)
        self.tag(name)
        self.emit(0x9F)
        self.callee(fallback, count)
        self.emit(0xA0, self.s.pure)

    def automatic(self, name, attributes, children, position, count):
        self.emit(0x81)
        key = None
        for attribute in attributes:
            if self.is_key(attribute) and attribute[2][0] != 0x40:
                key = attribute[2]
            else:
                self.attribute(attribute)
        if count:
            self.emit(0x9A)
            self.children(children)
            spread = any(child[0] == 0x51 for child in children)
            self.emit(0x9B, int(count > 1 or spread))
        self.emit(0x82)
        if key:
            self.emit(0x9D)
            self.value(key)
        elif self.s.dev:
            self.emit(0x92)
        if self.s.dev:
            self.emit(0x90 if count > 1 else 0x91)
        if name:
            if self.s.source:
                self.source(position)
            if self.s.self and self.self_allowed:
                self.emit(0xA2)

    def classic(self, name, attributes, children, position):
        if len(attributes) == 1 and attributes[0][0] in (0x32, 0x33) and not self.s.self and not self.s.source:
            if not self.has_proto(attributes[0]):
                self.emit(0x89, le(attributes[0][1]))
                self.children(children)
                return
        before = len(self.calls)
        self.emit(0x81)
        for attribute in attributes:
            self.attribute(attribute)
        if name:
            if self.s.self and self.self_allowed:
                self.emit(0xA2)
            if self.s.source:
                self.source(position)
        if len(self.calls) == before + 1:
            self.calls[before] = 0x88
        else:
            self.emit(0x82)
        self.children(children)

    def source(self, position):
        self.emit(0xA1, self.binding((None, FILE)), le(position[0] + 1, 4), le(position[1] + 1, 4))

    def has_proto(self, attribute):
        return any(len(each) == 2 and self.said(each[1]) == b"__proto__" for each in attribute[2])

    def attribute(self, attribute):
        code = attribute[0]
        if code == 0x32 or code == 0x33 and self.has_proto(attribute):
            self.emit(0x86, le(attribute[1]))
        elif code == 0x33:
            for each in attribute[2]:
                self.emit(0x87, le(each[0]))
        else:
            names, value = attribute[1:]
            if self.is_key(attribute) and value[0] == 0x40:
                self.notices += b"\xc0" + put(names[0])
            if code == 0x31:
                self.emit(0x84)
                self.string(names[0], 0x8E, names[1])
            elif b"-" in self.said(names[0]):
                self.emit(0x84)
                self.string(names[0])
            else:
                self.emit(0x83, put(names[0]))
            self.value(value)

    def value(self, value):
        code = value[0]
        if code in (0x40, 0x43):
            self.emit(0x90)
        elif code == 0x41:
            self.string(value[1])
        elif code == 0x42:
            self.emit(0x94, le(value[1]))
        else:
            self.node(value[1])

    def survives(self, child):
        return child[0] != 0x43 and not (child[0] == 0x50 and not self.lines(child[1]))

    def children(self, children):
        for child in children:
            code = child[0]
            if code == 0x50:
                lines = self.lines(child[1])
                if lines:
                    pieces = [lines[0]]
                    for line in lines[1:]:
                        pieces += [0x8C, line]
                    self.string(*pieces)
            elif code == 0x42:
                self.emit(0x94, le(child[1]))
            elif code == 0x51:
                self.emit(0x9C, le(child[1]))
            elif code != 0x43:
                self.node(child[1])

    def lines(self, span):
        lines, start, at = [], span[0], span[0]
        for char in self.said(span).decode():
            if char in ENDS:
                lines.append((start, at))
                start = at + len(char.encode())
            at += len(char.encode())
        lines.append((start, at))
        if len(lines) == 1:
            return [span]
        kept = []
        for number, (start, end) in enumerate(lines):
            line = self.text[start:end].decode()
            if all(char in WHITE for char in line):
                continue
            front = back = 0
            if number > 0:
                while line[front] in WHITE:
                    front += 1
            if number < len(lines) - 1:
                while line[len(line) - 1 - back] in WHITE:
                    back += 1
            start += len(line[:front].encode())
            end -= len(line[len(line) - back:].encode())
            kept.append((start, end - start))
        return kept

    def tag(self, name):
        if name is None:
            if self.s.classic:
                self.emit(0x98, 1)
            elif self.s.module:
                self.emit(0x96, self.binding((1, FRAGMENT)))
            else:
                self.emit(0x96, self.binding((1, None)), 0x99, FRAGMENT)
            return
        code, *names = name[0]
        if code == 0x20:
            self.string(names[0])
        elif code == 0x23:
            self.string(names[0], 0x8E, names[1])
            if self.s.throw:
                self.notices += b"\xc1" + put(names[0]) + put(names[1])
        else:
            if code == 0x21:
                self.emit(0x97, put(names[0]))
            else:
                self.emit(0x93)
            for _, member in name[1:]:
                self.emit(0xA3, put(member))

    def callee(self, fallback, count):
        if self.s.classic:
            self.emit(0x98, 0)
            return
        name = CREATE if fallback else DEV if self.s.dev else JSXS if count > 1 else JSX
        source = 0 if fallback else 1
        if self.s.module:
            self.emit(0x96, self.binding((source, name)))
        else:
            self.emit(0x96, self.binding((source, None)), 0x99, name)


def records_of(settings, bindings):
    groups = []
    for source, name in bindings:
        if name != FILE and source not in groups:
            groups.append(source)
    if not settings.module:
        groups.sort()
    tape = bytearray()
    for group in groups:
        tape += bytes([0xB0, group])
        for number, (source, name) in enumerate(bindings):
            if source == group and name != FILE:
                tape += bytes([0xB2, number] if name is None else [0xB1, name, number])
    if (None, FILE) in bindings:
        tape += bytes([0xB3, bindings.index((None, FILE)), int(not (settings.classic or settings.module))])
    return tape


def line(word, data):
    return " ".join([word, *(f"{byte:02x}" for byte in data)])


def shown(text, span):
    return "-" if span is None else "'" + text[span[0]:span[0] + span[1]].hex()


def run(job, text, roots, out, room=TARGET):
    try:
        s, told = open_job(job, text, room)
    except Refused as refusal:
        out("opening refused %d %d" % refusal.args)
        return
    runtime = "classic" if s.classic else "module" if s.module else "script"
    out(f"opening {runtime} plugin {s.plugin} self {s.self} source {s.source} development {s.dev} throw {s.throw} "
        f"pure {s.pure} pragma {shown(text, s.pragma)} {s.forms[0]} frag {shown(text, s.frag)} {s.forms[1]} "
        f"import {shown(text, s.importing)} typescript {shown(text, s.ts)} {shown(text, s.tsfrag)}")
    if told:
        out(line("notices", told))
    bindings, calls, notices = [], 0, len(told)
    for number, root in enumerate(roots):
        try:
            self_allowed, node = read_root(root, text)
            lowering = Lowering(text, s, bindings, self_allowed)
            lowering.node(node)
            if len(lowering.bindings) > 8:
                raise Refused(9, 8)
            if calls + len(lowering.calls) > TARGET:
                raise Refused(10, len(lowering.calls))
            if notices + len(lowering.notices) > room:
                raise Refused(11, len(lowering.notices))
        except Refused as refusal:
            out("root %d refused %d %d" % (number, *refusal.args))
            continue
        bindings = lowering.bindings
        calls += len(lowering.calls)
        notices += len(lowering.notices)
        out(f"root {number} accepted")
        out(line("calls", lowering.calls))
        out(line("notices", lowering.notices))
    out(line("records", records_of(s, bindings)))


def main():
    parser = argparse.ArgumentParser()
    parser.add_argument("file")
    parser.add_argument("--notices", type=int, default=TARGET)
    arguments = parser.parse_args()
    sys.setrecursionlimit(10000)
    with open(arguments.file, "rb") as file:
        for number, case in enumerate(unpack(file.read())):
            print(f"case {number}")
            run(*case, print, arguments.notices)


if __name__ == "__main__":
    main()

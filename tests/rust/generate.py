#!/usr/bin/env python3
"""Makes a file of cases: python3 generate.py FILE [--cases N] [--seed N] [--damaged PERCENT] [--roots N] [--no-grid]

First the grid, every flag byte with every shape of `grid`, the cases of `limits`, `span_faults`, `ampersands`, `pragma_faults` and `empty_values`; then N cases of chance. Each case is
a valid job with a series of one to N (six) valid roots; PERCENT of the cases of chance are then damaged. The same numbers give the same file.
"""

import argparse
import itertools
import random

from cases import pack

WHITE = ["\t", "\x0b", "\x0c", " ", "\xa0", "\u1680", "\u2000", "\u2005", "\u200a", "\u202f", "\u205f", "\u3000", "\ufeff"]
# not white space by ECMA-262, though some lists have them
NEARLY = ["\x85", "\u200b", "\u180e", "\u2060", "\x1c", "\x1f", "\x00", "\u200c"]
ENDS = ["\n", "\r", "\r\n", "\u2028", "\u2029"]
LETTERS = ["a", "b", "Batch", "ink", "7", "é", "µ", "漢", "😀", "-", ":", "'", '"', "\\", "{", "<"]
# what references are made of, and what looks like one
SIGNS = ["&", "&", "#", "x", "X", "+", "-", ";", "a", "1", "g"]
REFERENCES = ["&amp;", "&deg;", "&#65;", "&#+65;", "&#x41;", "&#x+fF;", "&nope;", "&1;"]
NAMES = ["a", "div", "key", "Key", "key2", "ke", "data-x", "-", "a-", "__self", "__source", "children", "__proto__", "this",
         "x.y", "é-é", "漢", "😀", "A", "Sheet", "React", "fileName", " ", "&", "a b", ":", "ref"]
PROPERTY_NAMES = ["__proto__", "__proto__", "__prot", "__proto___", "", "a", "key", "__PROTO__", "é", "constructor"]
PRAGMAS = ["h", "h.x", "h.class", "h.a.b.c", "React.createElement", "React.Fragment", "React", "this", "this.h", "this.a.b",
           "this.this", "this.", "import", "import.meta", "import.meta.h", "import.meta.a.class", "import.met", "import.meta.",
           "import.h", "a..b", ".a", "a.", ".", "..", "class", "class.a", "await", "yield", "enum", "let", "static", "async",
           "implements", "null.a", "true", "undefined", "a.1", "1a", "a1", "$", "_", "$_9.Z", "a-b", "a b", "@jsx", "null",
           "This", "thiss", "imports.meta", "h.this", "h.import", "a\tb", "", "await.x", "super.x", "of", "var_"]
# parts of pragmas that stand anywhere, at the front only, behind it only, and nowhere
PARTS = ["h", "this", "import", "meta", "class", "1x", ""]
MORE_PARTS = PARTS + ["h", "React", "createElement", "$_", "await", "of", "a-b", "x1", "import"]
OVER_ASCII = ["é", "h.é", "aé.b", "漢.x", "this.é"]
SOURCES = ["preact", "react", "", "@emotion/react", "é", "a/jsx-runtime", "x", "./local", "react/jsx-runtime"]
RUNTIMES = ["classic", "automatic", "Classic", "auto", "classic.", "classical"]


class Text:
    """The lent text grows by what is asked for. A string that stands there already is used again at times."""

    def __init__(self, chance):
        self.chance, self.data = chance, bytearray(chance.choice(["", "x", "é ", "<a/>\n", "😀"]).encode())

    def span(self, string):
        raw = string.encode()
        if self.chance.random() < 0.3:
            places, at = [], self.data.find(raw)
            while at >= 0 and len(places) < 8:
                if self.is_boundary(at):
                    places.append(at)
                at = self.data.find(raw, at + 1)
            if places:
                return pair(self.chance.choice(places), len(raw))
        if self.chance.random() < 0.2:
            self.data += self.chance.choice(["é", " ", "@jsx q ", "\n"]).encode()
        self.data += raw
        return pair(len(self.data) - len(raw), len(raw))

    def is_boundary(self, at):
        return at == len(self.data) or self.data[at] & 0xC0 != 0x80


def pair(start, size):
    return start.to_bytes(2, "little") + size.to_bytes(2, "little")


def u16(value):
    return value.to_bytes(2, "little")


def u32(value):
    return value.to_bytes(4, "little")


class Maker:
    def __init__(self, chance, most=6):
        self.chance, self.text, self.most = chance, Text(chance), most

    def some(self, share):
        return self.chance.random() < share

    # ---- the opening

    def job(self):
        c = self.chance
        flags = c.choice([c.randrange(256), c.randrange(256), 0x81, 0x01, 0x09, 0x91, 0x11, 0x00, 0x87, 0x07, 0x0F, 0x29, 0x08])
        job = bytearray(b"\x61" + u16(flags))
        for code, value in ((0x62, self.pragma), (0x63, self.pragma), (0x64, lambda: c.choice(SOURCES))):
            if self.some(0.3):
                if self.some(0.05):
                    value = lambda: c.choice(OVER_ASCII)
                job += bytes([code]) + self.text.span(value())
        for _ in range(c.choice([0, 0, 0, 1, 1, 2, 3, 5])):
            job += b"\x60" + self.text.span(self.comment())
        return bytes(job)

    def pragma(self):
        """One of the list, or parts of chance between dots, most of which are mistyped."""
        c = self.chance
        if self.some(0.5):
            return c.choice(PRAGMAS)
        return ".".join(c.choice(MORE_PARTS) for _ in range(c.choice([1, 2, 2, 3, 3, 4, 6])))

    def comment(self):
        c = self.chance
        if self.some(0.4):
            return self.tidy_comment()
        bits = ["@jsx", "@jsx ", "@jsx\t", "@jsxFrag ", "@jsxRuntime ", "@jsxImportSource ", "@jsxFoo ", "@jsxfrag ", "@jsxFrag",
                "@js ", "@", "@@", "*", " ", "\t", "\n", "\r", "\x0b", "\x0c", "`", "é", "classic", "automatic", "h", "f.g", "lib",
                "a", "\u2028", "\xa0", "@jsxRuntime\t", "@jsxImportSource\n", "jsx", "@jsx h", "@jsxFrag f", "."]
        return "".join(c.choice(bits) for _ in range(c.randrange(0, 9)))

    def tidy_comment(self):
        c = self.chance
        parts = [c.choice(["", " ", "* ", "*", "\n * ", "x", "`", "see a@b.c "])]
        for _ in range(c.randrange(1, 4)):
            keyword = c.choice(["", "", "Frag", "ImportSource", "Runtime", "Runtime", "Pragma", "runtime"])
            values = {"ImportSource": SOURCES, "Runtime": RUNTIMES}.get(keyword)
            if self.some(0.03):
                values = OVER_ASCII
            parts.append("@jsx" + keyword + c.choice([" ", "\t", "  ", " \t ", "\n ", " \n"]) + (c.choice(values) if values else self.pragma()))
            parts.append(c.choice([" ", "\n", "\t", "\x0b", "\x0c", "\r\n * ", "", " * ", "\xa0", " text "]))
        return "".join(parts)

    # ---- roots

    def root(self):
        c = self.chance
        root = bytearray(bytes([0x01, c.choice([0, 1, 2, 2])]))
        for _ in range(c.choice([0, 0, 1, 2])):
            root += bytes([0x02, c.randrange(2)])
        root += bytes([0x02, c.choice([2, 2, 3])])
        for _ in range(c.choice([0, 0, 0, 1, 2])):
            root += bytes([0x02, c.randrange(4)])
        self.left = c.choice([1, 2, 3, 5, 8, 13])
        if self.some(0.01):
            root += self.tower(c.choice([62, 63, 64, 65]))
        else:
            root += self.node(c.choice([1, 2, 3, 5]), self.some(0.2))
        return bytes(root)

    def position(self):
        c = self.chance
        number = lambda: c.choice([0, 0, 1, 9, 255, 256, 65535, 65536, 4294967294, c.randrange(4294967295)])
        return u32(number()) + u32(number())

    def number(self):
        return u16(self.chance.choice([0, 1, 5, 255, 256, 65535, self.chance.randrange(65536)]))

    def node(self, depth, is_fragment):
        c = self.chance
        self.left -= 1
        tape = bytearray(b"\x11" if is_fragment else b"\x10") + self.position()
        if not is_fragment:
            tape += self.name()
            tape += self.attributes(depth)
            tape += b"\x1e"
        for _ in range(c.choice([0, 0, 1, 1, 2, 3, 5])):
            tape += self.child(depth)
        return tape + b"\x1f"

    def tower(self, depth):
        """One in another, as children, attribute values and keys."""
        tape = b"\x1f"
        if self.some(0.5):
            tape = b"\x42" + self.number() + tape
        levels = []
        for _ in range(depth):
            kind = self.chance.randrange(4)
            if kind == 0:
                levels.append((b"\x11" + self.position(), b"\x1f"))
            elif kind == 1:
                levels.append((b"\x10" + self.position() + self.name() + b"\x1e", b"\x1f"))
            else:
                name = self.text.span("key" if kind == 2 else "a")
                levels.append((b"\x10" + self.position() + self.name() + b"\x30" + name, b"\x1e\x1f"))
        inner = b"\x11" + self.position() + tape
        for front, back in levels[1:]:
            inner = front + inner + back
        return inner

    def any_name(self):
        return self.text.span(self.chance.choice(NAMES))

    def name(self):
        kind = self.chance.choice([0x20, 0x20, 0x20, 0x21, 0x21, 0x22, 0x23])
        tape = bytes([kind])
        if kind != 0x22:
            tape += self.any_name()
        if kind == 0x23:
            tape += self.any_name()
        if kind in (0x21, 0x22):
            for _ in range(self.chance.choice([0, 0, 1, 2, 3])):
                tape += b"\x25" + self.any_name()
        return tape

    def attributes(self, depth):
        c = self.chance
        tape = bytearray()
        for _ in range(c.choice([0, 0, 1, 1, 1, 2, 3, 4, 6])):
            kind = c.choice(["plain", "plain", "plain", "key", "key", "pair", "spread", "spread", "literal", "literal"])
            if kind == "spread":
                tape += b"\x32" + self.number()
            elif kind == "literal":
                tape += self.literal()
            elif kind == "pair":
                first = self.text.span("key") if self.some(0.2) else self.any_name()
                tape += b"\x31" + first + self.any_name() + self.value(depth)
            elif kind == "key":
                tape += b"\x30" + self.text.span("key") + self.value(depth)
            else:
                tape += b"\x30" + self.any_name() + self.value(depth)
        return tape

    def literal(self):
        c = self.chance
        tape = bytearray(b"\x33") + self.number()
        for _ in range(c.choice([0, 0, 1, 2, 3])):
            if self.some(0.4):
                tape += b"\x34" + self.number()
            else:
                tape += b"\x36" + self.number() + self.text.span(c.choice(PROPERTY_NAMES))
        return tape + b"\x35"

    def value(self, depth):
        kind = self.chance.choice([0x40, 0x40, 0x41, 0x41, 0x42, 0x42, 0x43, 0x10, 0x11])
        if kind in (0x10, 0x11):
            if depth > 0 and self.left > 0:
                return self.node(depth - 1, kind == 0x11)
            kind = 0x42
        tape = bytes([kind])
        if kind == 0x41:
            tape += self.text.span(self.letters())
        elif kind == 0x42:
            tape += self.number()
        return tape

    def child(self, depth):
        kind = self.chance.choice([0x50, 0x50, 0x50, 0x42, 0x42, 0x43, 0x51, 0x10, 0x10, 0x11])
        if kind in (0x10, 0x11):
            if depth > 0 and self.left > 0:
                return self.node(depth - 1, kind == 0x11)
            kind = 0x43
        tape = bytes([kind])
        if kind == 0x50:
            tape += self.text.span(self.letters())
        elif kind in (0x42, 0x51):
            tape += self.number()
        return tape

    def letters(self):
        c = self.chance
        kinds = c.choice([[WHITE], [ENDS], [WHITE, ENDS], [WHITE, ENDS, LETTERS], [WHITE, ENDS, LETTERS, LETTERS],
                          [LETTERS], [WHITE, ENDS, LETTERS, NEARLY], [[" "], ["\n"], ["a", "b"]], [SIGNS], [SIGNS, WHITE, ENDS, LETTERS]])
        letters = "".join(c.choice(c.choice(kinds)) for _ in range(c.choice([0, 1, 1, 2, 3, 5, 8, 12])))
        # now and then a reference, which is refused
        return letters + c.choice(REFERENCES) if self.some(0.002) else letters

    def case(self):
        while True:
            self.text = Text(self.chance)
            job = self.job()
            roots = [self.root() for _ in range(min(self.most, self.chance.choice([1, 1, 2, 3, 4, 5, 6])))]
            text = bytes(self.text.data)
            # now and then the same root again
            if self.some(0.1):
                roots[-1] = roots[0]
            if len(text) <= 65535:
                return job, text, roots

    # ---- damage

    def damaged(self, job, text, roots):
        c = self.chance
        roots = list(roots)
        for _ in range(c.choice([1, 1, 1, 2])):
            place = c.randrange(8)
            if place == 0:
                job = self.damage(job)
            elif place == 1:
                text = self.damage_text(text)
            else:
                at = c.randrange(len(roots))
                roots[at] = self.damage(roots[at])
        return job, text, roots

    def damage(self, tape):
        c = self.chance
        codes = [0x00, 0x01, 0x02, 0x03, 0x10, 0x11, 0x1E, 0x1F, 0x20, 0x21, 0x22, 0x23, 0x25, 0x30, 0x31, 0x32, 0x33, 0x34, 0x35,
                 0x36, 0x40, 0x41, 0x42, 0x43, 0x50, 0x51, 0x60, 0x61, 0x62, 0x63, 0x64, 0xFF]
        tape = bytearray(tape)
        at = c.randrange(len(tape) + 1)
        kind = c.randrange(7)
        if kind == 0:
            return bytes(tape[:at])
        if kind == 1:
            tape[at:at] = bytes([c.choice(codes)])
        elif kind == 2 and tape:
            del tape[min(at, len(tape) - 1)]
        elif kind == 3:
            tape[at:at + c.randrange(1, 9)] = b""
        elif kind == 4:
            tape[at:at] = bytes(c.randrange(256) for _ in range(c.randrange(1, 6)))
        elif kind == 5 and len(tape) >= 4:
            at = c.randrange(len(tape) - 3)
            tape[at:at + 4] = b"\xff\xff\xff\xff"
        elif tape:
            at = min(at, len(tape) - 1)
            tape[at] = c.choice([c.choice(codes), c.randrange(256), tape[at] ^ 1 << c.randrange(8)])
        return bytes(tape)

    def damage_text(self, text):
        c = self.chance
        text = bytearray(text)
        at = c.randrange(len(text) + 1)
        kind = c.randrange(5)
        if kind == 0:
            return bytes(text[:at])
        if kind == 1:
            text[at:at] = c.choice(["&", "é", "\u2028", "-", " "]).encode()
        elif kind == 2:
            text[at:at] = c.choice([b"\x80", b"\xc3", b"\xed\xa0\x80", b"\xf5", b"\xf0\x9f\x98", b"\xc0\x80", b"\xff"])
        elif text:
            at = min(at, len(text) - 1)
            text[at] = c.choice([0x26, 0x0A, 0x20, 0x2D, c.randrange(128), c.randrange(256)])
        return bytes(text)


# ---- the grid

def grid(step):
    """Every flag byte with each of these roots, one case for a flag byte and a heritage."""
    text = b"akey__proto__b-c \n d\n\n:x@jsx p @jsxFrag this.q"
    at = lambda word: pair(text.index(word), len(word))
    a, key, proto, hyphen, lines, blank = at(b"a"), at(b"key"), at(b"__proto__"), at(b"b-c"), at(b" \n d\n\n"), at(b"\n\n")
    head, end = b"\x10" + u32(3) + u32(4) + b"\x20" + a, b"\x1e\x1f"
    fragment = b"\x11" + u32(5) + u32(6)
    value, spread, literal = b"\x42\x07\x00", b"\x32\x08\x00", b"\x33\x09\x00\x34\x0a\x00\x36\x0b\x00" + a + b"\x35"
    with_proto, empty = b"\x33\x0c\x00\x36\x0d\x00" + proto + b"\x35", b"\x33\x0e\x00\x35"
    keyed, bare = b"\x30" + key + value, b"\x30" + key + b"\x40"
    inner = b"\x10" + u32(0) + u32(0) + b"\x21" + a + b"\x25" + key + end
    shapes = [head + attributes + end for attributes in [
        b"", keyed, bare, keyed + bare, bare + keyed, keyed + keyed, spread, literal, with_proto, empty, empty + empty,
        spread + keyed, keyed + spread, literal + keyed, empty + keyed, with_proto + keyed, spread + bare, bare + spread,
        spread + b"\x31" + key + key + value, b"\x30" + hyphen + value, b"\x31" + a + hyphen + b"\x40",
        b"\x30" + key + b"\x43", b"\x30" + a + b"\x43", b"\x30" + a + b"\x41" + lines, b"\x30" + key + inner,
        b"\x30" + key + inner + keyed, b"\x30" + a + inner, b"\x30" + key + fragment + b"\x1f", spread + b"\x30" + key + inner]]
    children = [b"", value, value + value, b"\x51\x0f\x00", b"\x51\x0f\x00" + value, b"\x43", b"\x43" + value, b"\x50" + lines,
                b"\x50" + blank, b"\x50" + pair(0, 0), b"\x50" + a + inner, inner + inner, fragment + b"\x1f"]
    shapes += [head + b"\x1e" + each + b"\x1f" for each in children]
    shapes += [head + spread + keyed + b"\x1e" + each + b"\x1f" for each in children[:4]]
    shapes += [fragment + each + b"\x1f" for each in children]
    names = [b"\x21" + a, b"\x21" + a + b"\x25" + key, b"\x22", b"\x22\x25" + a, b"\x23" + a + key]
    shapes += [b"\x10" + u32(1) + u32(2) + name + end for name in names]
    options = [b"", b"\x62" + at(b"p"), b"\x64" + at(b"x"), b"\x60" + pair(text.index(b"@jsx"), 22)]
    for flags in range(256):
        for heritage in range(3):
            for scopes in (b"\x02\x03", b"\x02\x00\x02\x01\x02\x02"):
                front = bytes([0x01, heritage]) + scopes
                option = options[(flags + heritage + len(scopes)) % len(options)]
                roots = [front + shape for shape in shapes]
                for start in range(0, len(roots), step):
                    yield b"\x61" + u16(flags) + option, text, roots[start:start + step]


def limits(most):
    """Texts and tapes of the greatest length and one more, the greatest depth and one more, and calls that fill the target."""
    z, front = u32(0) + u32(0), b"\x01\x00\x02\x03"
    at_end = front + b"\x10" + z + b"\x20" + pair(65534, 1) + b"\x1e\x50" + pair(65535, 0) + b"\x1f"
    job = b"\x61\x81\x00"
    for text in (b"a" * 65535, b"a" * 65536, b"a" * 65533 + "é".encode(), b"\xff" + b"a" * 65535):
        yield job, text, [at_end]
    yield job + b"\x60" + pair(0, 65535), b"@jsx " * 13107, [at_end]
    # children of three bytes each
    long = front + b"\x11" + z + b"\x42\x01\x00" * 21840 + b"\x1f"
    for more in (b"", b"\x43", b"\x43\x43"):
        yield job, b"", [long[:-1] + more + b"\x1f"]
    yield b"\x61\x00\x00" + b"\x60\x00\x00\x00\x00" * 13106 + b"\x60\x00", b"", []
    yield b"\x61\x00\x00" + b"\x60\x00\x00\x00\x00" * 13107, b"", []
    # every empty fragment becomes twelve bytes: the second root doesn't fit, the third does
    half = lambda count: front + b"\x11" + z + (b"\x11" + z + b"\x1f") * count + b"\x1f"
    keyed = front + b"\x10" + z + b"\x20" + pair(0, 1) + b"\x32\x05\x00" + b"\x30" + pair(1, 3) + b"\x40\x1e\x1f"
    yield job, b"akey", [half(3000), half(3000), keyed, half(1), half(2000), keyed][:most]
    yield job, b"akey", [half(6000), keyed, half(1)][:most]
    # exactly full: 12 + 2 + 4 bytes around the children's 12 each
    for count in range(5458, 5463):
        yield job, b"akey", [half(count), half(0), half(0)][:most]
    # a text of a hundred lines is 601 bytes of calls each time: too long by itself, exactly full with another root, too long behind two
    lines = lambda count: front + b"\x11" + z + (b"\x50" + pair(0, 199)) * count + b"\x1f"
    for roots in ([lines(110), half(0)], [lines(109), half(0), half(0)], [half(0), half(0), lines(109), half(0)]):
        yield job, b"x\n" * 99 + b"x", roots[:most]
    # notices, for a target of 1,024 bytes: one too many, none too many, exactly full
    keys = lambda count: front + b"\x10" + z + b"\x20" + pair(0, 1) + (b"\x30" + pair(1, 3) + b"\x40") * count + b"\x1e\x1f"
    pairs = front + b"\x10" + z + b"\x23" + pair(0, 1) + pair(1, 3) + b"\x1e\x1f"
    for roots in ([keys(205), half(0)], [keys(204), keys(1), half(0)], [keys(203), pairs, keys(1)]):
        yield b"\x61\xa1\x00", b"akey", roots[:most]
    # the same behind the notices of an opening, of one pragma and of both: exactly full with the root that follows, and one too many
    one = b"\x61\x29\x00\x62" + pair(0, 0)
    both = one + b"\x63" + pair(4, 2)
    for opening, count in ((one, 202), (both, 201)):
        for roots in ([keys(count), pairs, keys(1)], [keys(count + 1), pairs, half(0)], [keys(count + 2), keys(count + 3), half(0)]):
            yield opening, b"akey1x", roots[:most]
    for depth in (64, 65):
        yield job, b"", [front + (b"\x11" + z) * depth + b"\x1f" * depth]
    yield job, b"", [b"", front, front + b"\x11", half(0)][:most]


def span_faults(step):
    """Every command that has a span, with spans that have each fault of theirs and each pair of faults; in commands with two spans every two of these."""
    text = b"a&b;" + "é".encode() + b"&"
    good, outside, over_ascii = pair(0, 1), pair(7, 1), pair(4, 2)
    kinds = {
        "good": good,
        "outside": outside,
        "cut at its end": pair(4, 1),
        "cut at its start": pair(5, 1),
        "empty": pair(7, 0),
        "outside, cut": pair(5, 9),
        "outside, empty": pair(8, 0),
        "cut, empty": pair(5, 0),
        "ampersand": pair(6, 1),
        "reference": pair(1, 3),
        "reference, outside": pair(1, 9),
        "reference, cut": pair(1, 4),
    }
    spans = list(kinds.values())
    z, head = u32(0) + u32(0), b"\x01\x00\x02\x03"
    element = head + b"\x10" + z + b"\x22"
    # what stands before a command with a span and behind it
    places = {
        0x20: (head + b"\x10" + z, b"\x1e\x1f"),
        0x21: (head + b"\x10" + z, b"\x1e\x1f"),
        0x25: (element, b"\x1e\x1f"),
        0x30: (element, b"\x40\x1e\x1f"),
        0x36: (element + b"\x33\x01\x00", b"\x35\x1e\x1f"),
        0x41: (element + b"\x30" + good, b"\x1e\x1f"),
        0x50: (head + b"\x11" + z, b"\x1f"),
    }
    commands = [(*places[code], bytes([code]) + (u16(2) if code == 0x36 else b"") + span) for code in places for span in spans]
    for code in (0x23, 0x31):
        before, behind = places[0x20 if code == 0x23 else 0x30]
        commands += [(before, behind, bytes([code]) + first + second) for first in spans for second in spans]
    roots = [before + command + behind for before, behind, command in commands]
    roots += [before + command[:-1] for before, _, command in commands]
    for start in range(0, len(roots), step):
        yield b"\x61\x81\x00", text, roots[start:start + step]
    for code in (0x62, 0x63, 0x64, 0x60):
        for span in spans:
            yield b"\x61\x09\x00" + bytes([code]) + span, text, []
            yield b"\x61\x09\x00" + bytes([code]) + span[:-1], text, []
    # a faulty option before another, and before a comment; 5 behind both
    for first, second in ((0x62, 0x63), (0x62, 0x60), (0x63, 0x64), (0x60, 0x60)):
        for a in (good, outside, pair(5, 1), over_ascii):
            for b in (good, outside, pair(5, 1), over_ascii):
                yield b"\x61\x09\x00" + bytes([first]) + a + bytes([second]) + b, text, []


def ampersands(step):
    """Texts and strings with ampersands: every string of at most three signs, every opening with every name or digits and every end, as a reference has them or nearly. The
    text goes on behind each, so that a semicolon there must not count."""
    openings = ["&", "&#", "&#+", "&#x", "&#x+", "&#X", "&#-", "&#++", "&+", "&&", "&a&", "&#&#", "&#x#", "a &"]
    strings = ["".join(signs) for count in range(4) for signs in itertools.product("&#xX+-;a1g", repeat=count)]
    strings += map("".join, itertools.product(openings, ["", "a", "1", "g", "AF", "f9", "1a", "ag", "1+", "é"], [";", "", " ;", "&;", "\n;"]))
    head, z = b"\x01\x00\x02\x03", u32(0) + u32(0)
    for start in range(0, len(strings), step):
        text, roots = b"ab", []
        for number, string in enumerate(strings[start:start + step]):
            span = pair(len(text), len(string.encode()))
            text += string.encode() + b";"
            as_value = head + b"\x10" + z + b"\x20" + pair(0, 1) + b"\x30" + pair(1, 1) + b"\x41" + span + b"\x1e\x1f"
            roots.append(as_value if (start + number) % 3 == 0 else head + b"\x11" + z + b"\x50" + span + b"\x1f")
        yield b"\x61\x81\x00", text, roots


def pragma_faults():
    """Pragmas of up to three parts, each with the one before it in the list as fragment pragma: as options, and in a comment, alone or over options that it overrides.
    Now and then the job is automatic, or without the plugin, so that the comment sets the TypeScript pair alone."""
    pragmas = [".".join(parts) for count in (1, 2, 3) for parts in itertools.product(PARTS, repeat=count)]
    for number, pragma in enumerate(pragmas):
        frag, other = pragmas[number - 1], pragmas[(number * 5 + 1) % len(pragmas)]
        flags = (0x09, 0x09, 0x08, 0x09, 0x81)[number % 5]
        text, tape = "", b"\x61" + u16(flags)
        for code, said in ((0x62, pragma), (0x63, frag)):
            tape += bytes([code]) + pair(len(text), len(said))
            text += said
        yield tape, text.encode(), []
        comment = f" @jsxFrag {other} @jsx {frag} "
        options = tape if number % 2 else b"\x61" + u16(flags)
        yield options + b"\x60" + pair(len(text), len(comment)), (text + comment).encode(), []


def empty_values():
    """Comments with a pragma that has no value, behind which another stands that may not count."""
    values = {"": "h", "Frag": "f", "ImportSource": "lib", "Runtime": "classic"}
    root = b"\x01\x00\x02\x03\x11" + u32(0) + u32(0) + b"\x1f"
    for first, (second, value) in itertools.product(values, values.items()):
        comment = f"* @jsx{first} \t\n * @jsx{second} {value} ".encode()
        yield b"\x61\x81\x00\x60" + pair(0, len(comment)), comment, [root]


def main():
    parser = argparse.ArgumentParser()
    parser.add_argument("file")
    parser.add_argument("--cases", type=int, default=10000)
    parser.add_argument("--seed", type=int, default=1)
    parser.add_argument("--damaged", type=int, default=25)
    parser.add_argument("--roots", type=int, default=6)
    parser.add_argument("--no-grid", action="store_true")
    arguments = parser.parse_args()
    chance = random.Random(arguments.seed)
    maker = Maker(chance, arguments.roots)
    with open(arguments.file, "wb") as file:
        if not arguments.no_grid:
            for case in (*grid(arguments.roots), *limits(arguments.roots), *span_faults(arguments.roots), *ampersands(arguments.roots), *pragma_faults(), *empty_values()):
                file.write(pack(*case))
        for _ in range(arguments.cases):
            case = maker.case()
            if chance.randrange(100) < arguments.damaged:
                case = maker.damaged(*case)
            file.write(pack(*case))


if __name__ == "__main__":
    main()

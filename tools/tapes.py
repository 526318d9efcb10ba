#!/usr/bin/env python3
"""Tapes as listings that people can read, and back.

    python3 tools/tapes.py list TAPE [TEXT]     a tape's listing; with the text, the words that its spans name
    python3 tools/tapes.py show HEX [WORDS]     the same of a tape in hexadecimal and of a text's words, as test vectors have them
    python3 tools/tapes.py make LISTING         the tape of a listing, to standard output
    python3 tools/tapes.py hex LISTING          the same in hexadecimal
    python3 tools/tapes.py explain ROOT TEXT NUMBER FIGURE
                                                what a refusal of a root means, and where the root's listing has it
    python3 tools/tapes.py table                every command, as docs/TAPES.md has them

A listing has one command on a line: its name, then its operands. Spans are `start+length`, expressions `e7`, bindings `b0`. What
stands behind `;` is a comment. `byte ff` stands for a byte that begins no command, or for operands that are cut off. All tapes of
the specification are listed by the same names, since no two of them share a command's code.
"""

import sys

FLAGS = "jsx_plugin self source classic development throw_if_namespace pure module".split()
WORDS = {
    "heritage": ["none", "class", "derived"],
    "kind": ["block", "arrow", "constructor", "function"],
    "call": ["classic", "automatic"],
    "form": ["bare", "array"],
    "pure": ["impure", "pure"],
    "pragma": ["call", "fragment"],
    "import": ["Fragment", "createElement", "jsx", "jsxs", "jsxDEV"],
    "source": ["import_source", "runtime_source"],
    "place": ["top_level", "body"],
}
# each command: its name, its operands, and what it says
TAPES = {
    "Opening tape": {
        0x61: ("flags flags", "the job's flags, from bit 0 on: " + ", ".join(FLAGS)),
        0x62: ("pragma span", "the pragma option: what classic calls call"),
        0x63: ("pragma_frag span", "the fragment pragma option: the tag of classic fragments"),
        0x64: ("import_source span", "the import source option: where automatic calls import from"),
        0x60: ("comment span", "the content of a comment, which may hold pragmas (`@jsx`, `@jsxFrag`, `@jsxImportSource`, `@jsxRuntime`)"),
    },
    "Root tape": {
        0x01: ("heritage heritage", "the nearest class body around the root: none, one without a superclass, one with"),
        0x02: ("scope kind", "a scope around the root, the innermost first: a block, an arrow function, a constructor, any other that has a `this` of its own"),
        0x10: ("element u32 u32", "an element begins; line and column of its start, from 0"),
        0x11: ("fragment u32 u32", "a fragment begins; the same"),
        0x1E: ("end_attributes", "the attributes of an element end, and its children begin"),
        0x1F: ("end", "an element or a fragment ends"),
        0x20: ("tag span", "a tag that is written as a string: `a`, `my-tag`"),
        0x21: ("tag_identifier span", "a tag that is an identifier: `Foo`"),
        0x22: ("tag_this", "the tag `this`"),
        0x23: ("tag_namespaced span span", "a namespaced tag: `a:b`"),
        0x25: ("tag_member span", "a property of the tag before it: `.Bar`"),
        0x30: ("attribute span", "an attribute's name; its value follows"),
        0x31: ("attribute_namespaced span span", "a namespaced one"),
        0x32: ("spread_attribute expression", "`{...e}`"),
        0x33: ("literal expression", "`{...e}` where e is an object literal, whose properties follow"),
        0x34: ("property expression", "a property of it without a name that is known"),
        0x36: ("named_property expression span", "a property and its name"),
        0x35: ("end_literal", "the properties end"),
        0x40: ("no_value", "an attribute's value: none"),
        0x41: ("string_value span", "a string"),
        0x42: ("container expression", "`{e}`, as a value or as a child"),
        0x43: ("empty_container", "`{}` or a comment in braces, as a value or as a child"),
        0x50: ("text span", "a child: text"),
        0x51: ("spread_child expression", "a child: `{...e}`"),
    },
    "Call tape": {
        0x80: ("call call", "a call begins, with the arguments of a classic or of an automatic one"),
        0x81: ("object", "an object literal begins: the properties"),
        0x82: ("end_object", "it ends"),
        0x83: ("name span", "a property's name, an identifier; its value follows"),
        0x84: ("string_name", "a property's name is the string that follows, then its value"),
        0x86: ("spread expression", "`...e` among the properties"),
        0x87: ("carried expression", "a property of an object literal that was spread, as it stands"),
        0x88: ("null", "`null` in place of the properties"),
        0x89: ("sole_spread expression", "e itself in place of the properties"),
        0x8A: ("string", "a string begins, in pieces"),
        0x8B: ("piece span", "a piece: this part of the text"),
        0x8C: ("space", "a piece: one space"),
        0x8E: ("colon", "a piece: one colon"),
        0x8D: ("end_string", "the string ends"),
        0x90: ("true", "`true`"),
        0x91: ("false", "`false`"),
        0x92: ("void_0", "`void 0`"),
        0x93: ("this", "`this`"),
        0x94: ("expression expression", "an expression that the host keeps"),
        0x96: ("binding binding", "the name that the record with this number binds"),
        0x97: ("identifier span", "an identifier"),
        0x98: ("pragma_callee pragma", "the pragma of a classic job, or its fragment pragma"),
        0x99: ("import_member import", "a member of what stands before, by the name of an import"),
        0xA3: ("member span", "a member of what stands before, by this part of the text"),
        0x9A: ("children", "the children's property begins; items follow"),
        0x9B: ("end_children form", "it ends: one item that stands alone, or an array"),
        0x9C: ("spread_item expression", "an item `...e`"),
        0x9D: ("key", "the key's value follows"),
        0x9E: ("call_tag", "the tag follows"),
        0x9F: ("callee", "the callee follows"),
        0xA0: ("end_call pure", "the call ends; whether it is marked as pure"),
        0xA1: ("file_name binding u32 u32", "`__source`: the file name's binding, line and column from 1"),
        0xA2: ("self", "`__self`: `this`"),
    },
    "Record tape": {
        0xB0: ("group source", "the records that follow come from this source"),
        0xB1: ("import import binding", "a named import, and the number that calls mention it by"),
        0xB2: ("require binding", "a require of the whole source"),
        0xB3: ("file_name_record binding place", "the file name, declared at the top level or in the body"),
    },
    "Notice tape": {
        0xC0: ("valueless_key span", "a key without a value"),
        0xC1: ("namespaced_tag span span", "a namespaced tag, where the flags forbid it"),
        0xC2: ("invalid_pragma span", "the first part of a pragma that is not valid, from the opening of a classic job"),
    },
}
COMMANDS = {code: command[0] for commands in TAPES.values() for code, command in commands.items()}
OPERANDS = {
    "span": "S", "expression": "E", "u32": "u32", "binding": "binding u8", "flags": "flags u16",
    **{kind: f"{kind} u8 ({', '.join(f'{n} {word}' for n, word in enumerate(words))})" for kind, words in WORDS.items()},
}
SIZES = {"span": 4, "u32": 4, "expression": 2, "flags": 2}
NAMES = {shape.split()[0]: code for code, shape in COMMANDS.items()}
OPENS = {"element", "fragment", "literal", "call", "object", "string", "children", "group"}
CLOSES = {"end", "end_literal", "end_call", "end_object", "end_string", "end_children"}


def number(data):
    return int.from_bytes(data, "little")


def shown(kind, data):
    if kind == "span":
        return f"{number(data[:2])}+{number(data[2:])}"
    if kind == "u32":
        return str(number(data))
    if kind == "expression":
        return f"e{number(data)}"
    if kind == "binding":
        return f"b{data[0]}"
    if kind == "flags":
        bits = number(data)
        names = [name for bit, name in enumerate(FLAGS) if bits >> bit & 1]
        return " ".join(names + ([f"0x{bits >> 8 << 8:04x}"] if bits >> 8 else [])) or "none"
    words = WORDS[kind]
    return words[data[0]] if data[0] < len(words) else str(data[0])


def word(text, data):
    start, length = number(data[:2]), number(data[2:])
    if text is None:
        return ""
    if start + length > len(text):
        return "outside the text"
    if any(place < len(text) and text[place] & 0xC0 == 0x80 for place in (start, start + length)):
        return "cuts a character"
    return '"' + text[start:start + length].decode("utf-8", "backslashreplace").replace("\n", "\\n").replace("\r", "\\r") + '"'


def listing(tape, text=None):
    """The lines of a tape's listing."""
    at, depth, lines = 0, 0, []
    while at < len(tape):
        shape = COMMANDS.get(tape[at], "").split()
        sizes = [SIZES.get(kind, 1) for kind in shape[1:]]
        if not shape or at + 1 + sum(sizes) > len(tape):
            lines.append("  " * depth + f"byte {tape[at]:02x}")
            at += 1
            continue
        name, operands, words = shape[0], [], []
        at += 1
        for kind, size in zip(shape[1:], sizes):
            data = tape[at:at + size]
            operands.append(shown(kind, data))
            if kind == "span":
                words.append(word(text, data))
            at += size
        if name in CLOSES:
            depth = max(depth - 1, 0)
        if name == "group":
            depth = 0
        line = "  " * depth + " ".join([name] + operands)
        comment = " ".join(w for w in words if w)
        lines.append(f"{line:<40}; {comment}" if comment else line)
        if name in OPENS:
            depth += 1
    return lines


def little(value, size, line):
    if not 0 <= value < 256**size:
        raise SystemExit(f"{value} does not fit: {line}")
    return value.to_bytes(size, "little")


def taken(kind, operand, line):
    try:
        if kind == "span":
            start, length = operand.split("+")
            return little(int(start), 2, line) + little(int(length), 2, line)
        if kind == "u32":
            return little(int(operand), 4, line)
        if kind in ("expression", "binding"):
            if operand[0] != kind[0]:
                raise ValueError
            return little(int(operand[1:]), SIZES.get(kind, 1), line)
        words = WORDS[kind]
        return little(words.index(operand) if operand in words else int(operand), 1, line)
    except ValueError:
        raise SystemExit(f"not a {kind}: {operand} in: {line}") from None


def flags(operands, line):
    bits = 0
    for operand in operands:
        if operand.startswith("0x"):
            bits |= number(hexed(operand[2:])[::-1])
        elif operand != "none":
            if operand not in FLAGS:
                raise SystemExit(f"no flag {operand}: {line}")
            bits |= 1 << FLAGS.index(operand)
    return little(bits, 2, line)


def made(lines):
    """The tape of a listing."""
    tape = b""
    for line in lines:
        name, *operands = line.split(";")[0].split() or [""]
        if not name:
            continue
        if name == "byte":
            tape += hexed("".join(operands))
            continue
        if name not in NAMES:
            raise SystemExit(f"no command {name!r}: {line!r}")
        code = NAMES[name]
        kinds = COMMANDS[code].split()[1:]
        tape += bytes([code])
        if kinds == ["flags"]:
            tape += flags(operands, line)
            continue
        if len(kinds) != len(operands):
            raise SystemExit(f"{len(kinds)} operands wanted: {line}")
        for kind, operand in zip(kinds, operands):
            tape += taken(kind, operand, line)
    return tape


def table():
    """Every command, as tables."""
    lines = []
    for tape, commands in TAPES.items():
        lines += [f"### {tape}", "", "| Code | Name in listings | Operands | What it says |", "|---|---|---|---|"]
        for code, (shape, says) in commands.items():
            name, *kinds = shape.split()
            lines.append(f"| {code:02X} | `{name}` | {', '.join(OPERANDS[kind] for kind in kinds)} | {says} |")
        lines.append("")
    return lines[:-1]


# what each refusal of a root means; the figure is an offset on the tape but for those in COUNTS and 2
REFUSALS = {
    1: "text or tape has over 65,535 bytes",
    2: "the text is not UTF-8: an ill-formed sequence begins at byte {figure} of it",
    3: "a command or an operand is not allowed here, or the tape ends too soon",
    4: "a span ends beyond the text",
    6: "this element or fragment is on the 65th level",
    7: "there is a character reference in the text or string",
    8: "the line or the column is 4,294,967,295",
    9: "the job would need more than 8 bindings",
    10: "the call target has no room for the {figure} bytes that the root's calls take",
    11: "the notice target has no room for the {figure} bytes of the root's notices",
    12: "the state is not one that this text and these targets can have",
    13: "a span begins or ends within a character of the text",
    14: "a name is empty",
}
ON_TAPE = {3, 4, 6, 7, 8, 13, 14}


def explained(root, text, refusal, figure):
    """A refusal of a root in words, with the listing's line at its place and where the element around it begins."""
    if refusal not in REFUSALS:
        raise SystemExit(f"no root is refused by {refusal}")
    said = [f"refused by {refusal}: " + REFUSALS[refusal].format(figure=figure)]
    if refusal not in ON_TAPE:
        return said
    at, lines, around = 0, listing(root, text), []
    for place, line in enumerate(lines, 1):
        size, name = len(made([line])), line.split()[0]
        if at <= figure < at + size:
            said.append(f"at byte {figure} of the root tape, line {place} of its listing: {line.strip()}")
            break
        if name in ("element", "fragment"):
            around.append(line.split())
        elif name == "end" and around:
            around.pop()
        at += size
    else:
        said.append(f"at byte {figure}, where the root tape ends")
    if around:
        kind, line_number, column = around[-1][:3]
        said.append(f"in the {kind} that begins at line {int(line_number) + 1}, column {int(column) + 1}")
    return said


def file_bytes(path):
    try:
        with open(path, "rb") as file:
            return file.read()
    except OSError as error:
        raise SystemExit(f"{path}: {error.strerror}") from None


def listed_lines(path):
    try:
        return file_bytes(path).decode("utf-8").split("\n")
    except UnicodeDecodeError:
        raise SystemExit(f"{path}: no listing, since it is not UTF-8") from None


def hexed(word):
    try:
        return bytes.fromhex(word)
    except ValueError:
        raise SystemExit(f"not hexadecimal: {word}") from None


def numbered(word):
    if not word.isdecimal():
        raise SystemExit(f"not a number: {word}")
    return int(word)


def run(command, *words):
    if command == "list" and len(words) in (1, 2):
        return listing(*map(file_bytes, words))
    if command == "show" and len(words) in (1, 2):
        return listing(hexed(words[0]), words[1].encode() if len(words) > 1 else None)
    if command == "hex" and len(words) == 1:
        return [made(listed_lines(words[0])).hex(" ")]
    if command == "explain" and len(words) == 4:
        return explained(file_bytes(words[0]), file_bytes(words[1]), numbered(words[2]), numbered(words[3]))
    if command == "table" and not words:
        return table()
    raise SystemExit(__doc__)


def main():
    if sys.argv[1:2] == ["make"] and len(sys.argv) == 3:
        sys.stdout.buffer.write(made(listed_lines(sys.argv[2])))
        return
    print("\n".join(run(*sys.argv[1:] or [""])))


if __name__ == "__main__":
    main()

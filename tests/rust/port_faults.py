#!/usr/bin/env python3
"""Puts one deliberate fault at a time into a copy of the port: python3 port_faults.py [NUMBERS]

The copy is run by `rt try`, which compiles it without proof, on crates/replay/stdin, and what it writes is held to crates/replay/stdout. (One case is added, a
series that fills the target for calls exactly, with the model's answer: it is too long for the list. `rt try` takes no answers of more than a megabyte.) A
fault is seen if what is written differs or the program breaks off. NUMBERS choose some of the faults. Needs the Rattle kit and no Rust.
"""

import pathlib
import shutil
import subprocess
import sys
import tempfile

from cases import pack, unpack
from generate import limits
from model import run

TOP = pathlib.Path(__file__).resolve().parent.parent.parent
JSX, EMIT, SELF, PEN, STRINGS = "jsx/src/jsx_impl.rt", "emit/src/jsx_impl.rt", "emit/src/jsx_self.rt", "pen/src/pen.rt", "pen/src/strings.rt"
PARTS, LINES, ROOTS, CHARS, LOWERING = "parts/src/jsx_impl.rt", "jsx_text/src/lib.rt", "root_check/src/check.rt", "text/src/chars.rt", "lowering/src/lib.rt"
COMMENTS, SETTINGS, OPTIONS, PRAGMA = "comments/src/lib.rt", "settings/src/jsx_impl.rt", "option_values/src/lib.rt", "pragma/src/lib.rt"
OPENING = "settings/src/opening.rt"
GROUPS, RECORDS, FINDING, NOTICES = "records/src/groups.rt", "records/src/record_tape.rt", "records/src/finding.rt", "pen/src/diagnostics.rt"
REFUSALS, REFERENCES = "tape/src/refusal.rt", "references/src/lib.rt"

# what is wrong then, the file, and old and new text in turn; each old text occurs once
FAULTS = [
    ("a sole spread child is bare", PARTS, "    u8::from(count != 1 || spread)", "    u8::from(count != 1)"),
    ("the first key counts", PARTS, "    key.map(|place| at + place).or(before)", "    before.or(key.map(|place| at + place))"),
    ("a lone spread with the source plugin", PARTS, "    if flags.self_plugin || flags.source_plugin {", "    if flags.self_plugin {"),
    ("a lone spread with the self plugin", PARTS, "    if flags.self_plugin || flags.source_plugin {", "    if flags.source_plugin {"),
    ("a lone literal with __proto__", PARTS, "            if proto.value {\n                return None;\n            }\n", ""),
    ("self before source in automatic calls", JSX, "    source_output(&sound.context, place, pen);\n    self_output(&sound.context, pen);\n",
     "    self_output(&sound.context, pen);\n    source_output(&sound.context, place, pen);\n"),
    ("source before self in classic calls", JSX, "    self_output(&sound.context, pen);\n    source_output(&sound.context, place, pen);\n",
     "    source_output(&sound.context, place, pen);\n    self_output(&sound.context, pen);\n"),
    ("a key with an empty container has no value", PARTS, "!matches!(value, ValueCommand::Absent)", "!matches!(value, ValueCommand::Absent | ValueCommand::Empty)"),
    ("an empty container is a child", JSX, "Ok(ChildCommand::Empty) => unread(sizes::BARE),",
     "Ok(ChildCommand::Empty) => Items {\n            used: sizes::BARE,\n            count: 1,\n            spread: false,\n        },"),
    ("a literal's spread does not count before a key", PARTS, "Front::Spread(sizes::WITH_EXPRESSION + skip", "Front::Other(sizes::WITH_EXPRESSION + skip"),
    ("a classic call without property has an object", JSX, "    if has_more(&sound.context, props.some) {", "    if true | has_more(&sound.context, props.some) {"),
    ("no void 0 for fragments", JSX, "    no_key(&sound.context, pen);\n    static_children(&sound.context, items.count, pen);\n", "    static_children(&sound.context, items.count, pen);\n"),
    ("the callee's binding before the children", JSX, "    pen.put_byte(WithByte::Call, Form::Automatic as u8);\n    pen.put_bare(Bare::ObjectBegin);\n    let props",
     "    let start = pen.at.calls;\n    closing(&sound.context, automatic_name(&sound.context, 0), pen);\n    pen.at.calls = start;\n"
     "    pen.put_byte(WithByte::Call, Form::Automatic as u8);\n    pen.put_bare(Bare::ObjectBegin);\n    let props"),
    ("jsxs from one child on", EMIT, "    if count < 2 {\n        return records::JSX;", "    if count < 1 {\n        return records::JSX;"),
    ("static children from one on", EMIT, "    let several = if 2 <= count {\n        Bare::LiteralTrue", "    let several = if 1 <= count {\n        Bare::LiteralTrue"),
    ("createElement from the runtime source", EMIT, "    let source = source_of(name);", "    let source = if name == records::CREATE_ELEMENT {\n        records::RUNTIME_SOURCE\n    } else {\n        source_of(name)\n    };"),
    ("a hyphen is no matter", EMIT, "find_byte(part(context.text, span), b'-')", "find_byte(part(context.text, span), b'/')"),
    ("__proto counts as __proto__", EMIT, 'b"__proto__")', 'b"__prot")'),
    ("an empty piece is written", STRINGS, "        if span.len == 0 {\n            return;\n        }\n", ""),
    ("namespaced tags are never noticed", EMIT, "            if context.settings.options.flags.throw_if_namespace {", "            if false & context.settings.options.flags.throw_if_namespace {"),
    ("the names of a notice are swapped", NOTICES, "self.put_notice(namespace);", "self.put_notice(name);"),
    ("a class without superclass forbids this", SELF, "!matches!(heritage, Heritage::Derived)", "matches!(heritage, Heritage::NoClass)"),
    ("an outer constructor decides", SELF, "inside |= !known & is_constructor(kind);", "inside |= is_constructor(kind);"),
    ("the column counts from 0", PEN, "place.column.wrapping_add(1)", "place.column.wrapping_add(0)"),
    ("a run of letters takes the spaces behind it", LINES, ".rposition(|b| *b != b' ')", ".rposition(|b| *b < 0x80)"),
    ("the first line loses its front", LINES, "    let mut first_non_whitespace = 0;", "    let mut first_non_whitespace = chars.len();"),
    ("blank lines stay", LINES, "                if first_non_whitespace < last_non_whitespace {", "                if true {"),
    ("lines join without a space", LINES, "Bare::Space", "Bare::Colon"),
    ("U+2029 ends no line", CHARS, " | 0x2028 | 0x2029)", " | 0x2028)"),
    ("U+FEFF is no white space", CHARS, " | 0x0c | 0xfeff)", " | 0x0c)"),
    ("U+0085 is white space", CHARS, "matches!(code, 0x09 | 0x0b", "matches!(code, 0x09 | 0x85 | 0x0b"),
    ("a 65th level", ROOTS, "    if MOST_LEVELS <= depth {", "    if 65 <= depth {"),
    ("a reference passes", ROOTS, "    if has_reference(part(text, span)) {", "    if false {"),
    ("a reference needs no semicolon", REFERENCES, "    if is_at(s, end, b';') {", "    if true {"),
    ("no plus sign before digits", REFERENCES, "    if is_at(s, n, b'+') {", "    if false {"),
    ("upper-case X opens digits", REFERENCES, "    if is_at(s, 2, b'x') {", "    if is_at(s, 2, b'x') | is_at(s, 2, b'X') {"),
    ("a reference may be empty", REFERENCES, "    if end == start {", "    if false {"),
    ("the first ampersand decides", REFERENCES, "        rest = &rest[sign + bare..];", "        return false;"),
    ("a name is of letters alone", REFERENCES, "Kind::Name => b.is_ascii_alphanumeric()", "Kind::Name => b.is_ascii_alphabetic()"),
    ("the greatest column passes", ROOTS, "place.column == HIGHEST {", "place.column == 0xffff_fffe {"),
    ("an empty name passes", ROOTS, "Bounds::Empty => refuse(Fault::EmptyName),", "Bounds::Empty => Ok(n),"),
    ("a star before @ doesn't count", COMMENTS, " | b'*')", ")"),
    ("VT doesn't end a value", COMMENTS, "0x09..=0x0d | b' '", "0x09..=0x0a | 0x0c..=0x0d | b' '"),
    ("an unknown keyword ends the search", COMMENTS, "            continue 'signs;\n        };\n        break", "            return None;\n        };\n        break"),
    ("the JSX pair is set always", COMMENTS, "let pair = options.flags.jsx_plugin | options.flags.development;", "let pair = true;"),
    ("a rejected @ takes the next byte along", COMMENTS, "        if bytes != u32::from_le_bytes(*b\"@jsx\") {\n", "        if bytes != u32::from_le_bytes(*b\"@jsx\") {\n            from = sign + 2;\n"),
    ("the byte behind a value stays", COMMENTS, "at = pragma.end + 1;", "at = pragma.end;"),
    ("pure where only one of the two is absent", SETTINGS, "(options.import_source.is_none() & options.pragma.is_none())", "(options.import_source.is_none() | options.pragma.is_none())"),
    ("development doesn't turn on the source plugin", OPTIONS, "        source_plugin: f.source_plugin | f.development,\n", ""),
    ("reserved roots are in order", PRAGMA, "    if !is_identifier_name(root) || is_reserved_keyword(root) {", "    if !is_identifier_name(root) {"),
    ("import with any second part", PRAGMA, 'Some(b"meta") => ', 'Some(_) => '),
    ("a digit begins a name", PRAGMA, "    is_identifier_start(*first) && ", "    is_identifier_part(*first) && "),
    ("source 0 isn't put in front", GROUPS, "with_group(groups, source, source == IMPORT_SOURCE)", "with_group(groups, source, false)"),
    ("the file name within a script's body in classic", RECORDS, "u8::from(mode == Mode::Script)", "u8::from(mode != Mode::Module)"),
    ("the file name is bound anew", FINDING, "r.import == import)", "r.import == import && import != Import::FileName)"),
    ("the room for notices is not looked at", LOWERING, "    if notice_room - state.notices < pen.at.notices {", "    if notice_room < pen.at.notices {"),
    ("a target can't be filled to the end", LOWERING, "    if call_room - state.calls < pen.at.calls {", "    if call_room - state.calls <= pen.at.calls {"),
    ("13 and 14 are swapped", REFUSALS, "    Cuts = 13,\n    EmptyName = 14,", "    Cuts = 14,\n    EmptyName = 13,"),
    ("the first span's fault is told", ROOTS, "    let bounds = span_bounds(text, first).max(span_bounds(text, second));\n",
     "    let bounds = match span_bounds(text, first) {\n        Bounds::Cuts => Bounds::Cuts,\n        found => found.max(span_bounds(text, second)),\n    };\n"),
    ("an empty name is told before a span that cuts", ROOTS, "    let bounds = span_bounds(text, first).max(span_bounds(text, second));\n",
     "    let bounds = match (span_bounds(text, first), span_bounds(text, second)) {\n        (Bounds::Empty, Bounds::Cuts) => Bounds::Empty,\n        (a, b) => a.max(b),\n    };\n"),
    ("the last part of a pragma that fails is told", PRAGMA,
     "            return Err(InvalidPart {\n                place,\n                len: part.len(),\n            });\n",
     "            last = Err(InvalidPart {\n                place,\n                len: part.len(),\n            });\n",
     "    let mut tail = 0;\n", "    let mut tail = 0;\n    let mut last = Ok(());\n",
     "    Ok(Form { root, tail })\n", "    last?;\n    Ok(Form { root, tail })\n"),
    ("the part behind import is told in place of the root", PRAGMA,
     "        _ => Err(InvalidPart { place: 0, len }),\n",
     "        Some(part) => Err(InvalidPart { place: len + 1, len: part.len() }),\n        None => Err(InvalidPart { place: 0, len }),\n"),
    ("a part that fails is told by its place in the pragma", PRAGMA, "        place: usize::from(span.start).saturating_add(part.place),\n", "        place: part.place,\n"),
    ("an automatic job tells of its pragmas", PRAGMA, "    parse_no_ctx(text, in_force(mode, pragma))\n", "    parse_no_ctx(text, pragma)\n"),
    ("the fragment pragma is told first", OPENING,
     "let behind = put_notice(notices, 0, read);\n        put_notice(notices, behind, read_frag);",
     "let behind = put_notice(notices, 0, read_frag);\n        put_notice(notices, behind, read);"),
    ("a root's notices are written over the opening's", OPENING, "Ok((new(options, read, read_frag), size))", "Ok((new(options, read, read_frag), 0))"),
]


def copied(folder):
    """The port's code, what it is run on, and what it must write."""
    names = [line.split(":")[0].split()[0] for line in (TOP / "crates.txt").read_text().split("\n") if ":" in line and line[0] != "#"]
    for name in names:
        shutil.copytree(TOP / "crates" / name / "src", folder / "crates" / name / "src")
    shutil.copy(TOP / "crates.txt", folder)
    listed, answers = (TOP / "crates/replay/stdin").read_bytes(), (TOP / "crates/replay/stdout").read_text()
    full = next(case for case in limits(3) if len(case[1]) == 199 and len(case[2][0]) > len(case[2][1]) and len(case[2]) == 3)
    lines = [f"case {len(list(unpack(listed)))}"]
    run(*full, lines.append)
    return listed + pack(*full), (answers + "".join(line + "\n" for line in lines)).encode()


def tried(folder, given, wanted):
    """Whether the compiled program writes what it should. The interpreter, which `rt try` runs too, breaks off at a number of steps."""
    done = subprocess.run(["rt", "try"], cwd=folder / "crates/replay", input=given, capture_output=True)
    if b"\nrun=none" in done.stderr or b"\nrun=" not in done.stderr:
        sys.exit(done.stderr.decode(errors="replace"))
    return done.returncode == 0 and done.stdout == wanted


def main():
    chosen = set(map(int, sys.argv[1:])) or set(range(len(FAULTS)))
    unseen = 0
    with tempfile.TemporaryDirectory() as name:
        folder = pathlib.Path(name)
        given, wanted = copied(folder)
        if not tried(folder, given, wanted):
            sys.exit("the port without a fault differs already")
        for number in sorted(chosen):
            what, file, *texts = FAULTS[number]
            path = folder / "crates" / file
            right = wrong = path.read_text()
            for old, new in zip(texts[::2], texts[1::2]):
                if right.count(old) != 1:
                    sys.exit(f"{number} {what}: the text to change occurs {right.count(old)} times")
                wrong = wrong.replace(old, new)
            path.write_text(wrong)
            is_right = tried(folder, given, wanted)
            path.write_text(right)
            unseen += is_right
            print(f"{number} {what}: {'NOT SEEN' if is_right else 'seen'}", flush=True)
    print(f"{len(chosen)} faults, {len(chosen) - unseen} seen")
    sys.exit(1 if unseen else 0)


if __name__ == "__main__":
    main()

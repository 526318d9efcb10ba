#!/usr/bin/env python3
"""Chooses a small list of cases that covers what a large one covers: python3 sample.py CASES ORACLE OTHER LIST ANSWERS

CASES as generate.py wrote them, ORACLE and OTHER two programs' answers to them; LIST gets the cases that were chosen, ANSWERS their
answers. Cases in which the two differ are an error. What a case covers: each command of its tapes under each kind of settings, each pair of
neighbouring commands on the call tape, attributes alone and in pairs, children by their number, lines of texts by what stands at their ends, ampersands by what stands behind them, pragmas of
comments by what stands around them, pragmas by their parts and by the first part that fails, options that a comment overrides, each refusal with the command it speaks of and
all faults of that command's spans, each setting, each form of the record tape. Short cases are taken first. The settings, calls, notices and records are the Rust's. What
the Rust doesn't have: the notices of openings are the model's, the numbers and figures of refusals OTHER's.
"""

import heapq
import re
import sys

from cases import pack, unpack
from compare import agrees, cases, oracle_answers
from model import ENDS, REFERENCE, RESERVED, WHITE, first_failing, open_job, parts_of, read_root, span_faults

WHITE = "".join(WHITE)

# operand bytes of the commands of call tapes
CALLS = {0x80: 1, 0x83: 4, 0x86: 2, 0x87: 2, 0x89: 2, 0x8B: 4, 0x94: 2, 0x96: 1, 0x97: 4, 0x98: 1, 0x99: 1, 0x9B: 1, 0x9C: 2,
         0xA0: 1, 0xA1: 9, 0xA3: 4}
ROOTS = {0x01: 1, 0x02: 1, 0x10: 8, 0x11: 8, 0x20: 4, 0x21: 4, 0x23: 8, 0x25: 4, 0x30: 4, 0x31: 8, 0x32: 2, 0x33: 2, 0x34: 2,
         0x36: 6, 0x41: 4, 0x42: 2, 0x50: 4, 0x51: 2}
OPENINGS = {0x60, 0x61, 0x62, 0x63, 0x64}
# where a command's spans begin, and which are names
SPANS = {0x20: (1,), 0x21: (1,), 0x23: (1, 5), 0x25: (1,), 0x30: (1,), 0x31: (1, 5), 0x36: (3,), 0x41: (1,), 0x50: (1,), 0x60: (1,), 0x62: (1,), 0x63: (1,), 0x64: (1,)}
NAMES = {0x20, 0x21, 0x23, 0x25, 0x30, 0x31}
SHORT = {0x01, 0x02, 0x80, 0x98, 0x99, 0x9B, 0xA0}


def commands(tape, operands):
    """The commands, those with one byte together with it."""
    at, found = 0, []
    while at < len(tape):
        code = tape[at]
        found.append((code, tape[at + 1]) if code in SHORT and at + 1 < len(tape) else (code,))
        at += 1 + operands.get(code, 0)
    return found


def attribute_kind(attribute, text):
    code, first = attribute[:2]
    if code == 0x33:
        names = [text[each[1][0]:sum(each[1])] for each in attribute[2] if len(each) == 2]
        return code, len(attribute[2]) > 0, b"__proto__" in names
    if code != 0x30:
        return (code,)
    return code, text[first[0][0]:sum(first[0])] == b"key", attribute[2][0] == 0x40


def in_lines(letters):
    """What a text's lines are like: which one it is, and what stands at both ends."""
    lines = re.split("[" + "".join(ENDS) + "]", letters)
    for number, line in enumerate(lines):
        place = "only" if len(lines) == 1 else "first" if number == 0 else "last" if number == len(lines) - 1 else "inner"
        yield "line", place, line.strip(WHITE) == "", line[:1] in WHITE, line[-1:] in WHITE
        for letter in line[:1], line[-1:]:
            yield "at an end", letter if letter.isspace() or not letter.isprintable() else None
    for letter in letters:
        if letter in ENDS:
            yield "line end", letter


def behind_ampersands(code, letters):
    """Ampersands of a text or a string: what stands behind them, as a reference's opening or nearly, and then as its name or digits, and whether a semicolon follows."""
    for found in re.finditer(rb"&(?=(#[xX]?[+-]?|)([0-9]*)([A-Za-z]*)(.?))", letters, re.S):
        opening, digits, more, end = found.groups()
        yield "ampersand", code, opening == b""
        yield "ampersand", opening, digits != b"", more != b"", end == b";"


def in_tree(node, text, mode, plugins, self_allowed):
    name, attributes, children, _ = node
    kinds = [attribute_kind(attribute, text) for attribute in attributes]
    if len(kinds) == 0:
        yield "alone", mode, plugins, self_allowed, name is None
    if len(kinds) == 1:
        yield "alone", mode, plugins, kinds[0]
    for pair in zip(kinds, kinds[1:]):
        yield "pair", mode[0], pair
    for attribute in attributes:
        if attribute[0] in (0x30, 0x31) and attribute[2][0] in (0x10, 0x11):
            yield from in_tree(attribute[2][1], text, mode, plugins, self_allowed)
        elif attribute[0] in (0x30, 0x31) and attribute[2][0] == 0x41:
            yield from behind_ampersands(0x41, text[attribute[2][1][0]:sum(attribute[2][1])])
    yield "children", mode, name is None, min(len(children), 2), 0x51 in [child[0] for child in children]
    for child in children:
        if child[0] in (0x10, 0x11):
            yield from in_tree(child[1], text, mode, plugins, self_allowed)
        elif child[0] == 0x50:
            yield from in_lines(text[child[1][0]:sum(child[1])].decode())
            yield from behind_ampersands(0x50, text[child[1][0]:sum(child[1])])


def in_comments(job, text, pair):
    """What stands before, in and behind the pragmas of an opening tape's comments."""
    for at in range(3, len(job), 5):
        start, size = (int.from_bytes(job[at + i:at + i + 2], "little") for i in (1, 3))
        comment = text[start:start + size] if job[at] == 0x60 else b""
        for place in re.finditer(b"@", comment):
            sign = re.compile(rb"@(jsx)?([^ \t]*)([ \t]*)([^\t-\r ]*)").match(comment, place.start())
            before, behind = comment[:sign.start()][-1:], comment[sign.end():][:1]
            word = sign[2] if sign[2] in (b"", b"Frag", b"ImportSource", b"Runtime") else None
            yield "comment", sign[1], before if before in b" \t\r\n*@" else None
            yield "keyword", pair, word, sign[4] == b"", b"@jsx" in comment[sign.end():]
            yield "behind", behind, comment[sign.end() + 1:][:1] == b"@"
            another = re.match(rb"[\t-\r *]*@jsx(|Frag|ImportSource|Runtime)[ \t]", comment[sign.end():])
            if sign[1] and word is not None and sign[4] == b"" and another:
                yield "no value", word, another[1]


def part_kind(part):
    kinds = ((r"", "empty"), (r"this|import|meta", part), ("|".join(RESERVED), "reserved"), (r"[A-Za-z$_][\w$]*", "name"), (r"\d.*", "digit"))
    return next((kind for expression, kind in kinds if re.fullmatch(expression, part, re.A)), "other")


def pragma_shape(text, span):
    """A pragma by its first parts, or by its root and the first part that fails."""
    parts = parts_of(text, span)
    number = first_failing(parts)
    if number is None:
        return "valid", *map(part_kind, parts[:2])
    return "invalid", min(number, 3), part_kind(parts[0]), part_kind(parts[number])


def in_pragmas(job, text, mode):
    """The pragmas in force, and of options that a comment overrides whether the one and the other are valid."""
    given = {job[at]: tuple(int.from_bytes(job[at + i:at + i + 2], "little") for i in (1, 3)) for at in range(3, len(job), 5)}
    settings, told = open_job(job, text)
    yield "told", mode, len(told)
    for code, span in ((0x62, settings.pragma), (0x63, settings.frag)):
        shapes = [pragma_shape(text, each) for each in (span, given.get(code)) if each is not None]
        if shapes:
            yield "pragma", mode[0], code, shapes[0][:None if mode[0] == "classic" else 1]
        if given.get(code) not in (None, span):
            yield "overridden", mode[0], code, *(shape[0] for shape in shapes)


def spoken_of(number, figure, text, tape, known):
    """What a refusal speaks of: too long a text or tape, the kind of a byte of the text, a command that there is, another byte, the tape's end."""
    if number == "1":
        return len(text) > figure
    if number in ("2", "5"):
        return text[figure] >> 4
    if figure >= len(tape):
        return "end"
    code = tape[figure]
    if number in ("4", "13", "14"):
        spans = [tuple(int.from_bytes(tape[at:at + 2], "little") for at in (figure + place, figure + place + 2)) for place in SPANS[code]]
        return code, *(tuple(span_faults(text, span, code in NAMES)) for span in spans)
    if number == "7":
        start, size = (int.from_bytes(tape[at:at + 2], "little") for at in (figure + 1, figure + 3))
        before, reference = text[start:start + size].split(b"&", 1)[0], REFERENCE.search(text[start:start + size])
        return code, len(before) < reference.start(), re.match(b"&#?x?[+]?", reference[0])[0], reference[0][-2:-1].isdigit()
    return code if code in known else "other"


def covered(job, text, roots, answer):
    found = set()
    words = answer[1].split(" ")
    if words[1] == "refused":
        found.add(("opening", words[2], spoken_of(words[2], int(words[3]), text, job, OPENINGS)))
        return found
    shown = [word[:1] if word.startswith("'") else word for word in words[1:]]
    mode = (shown[0], shown[shown.index("development") + 1])
    plugins = tuple(shown[shown.index(word) + 1] for word in ("self", "source"))
    found.update(in_comments(job, text, "1" in (shown[shown.index("plugin") + 1], mode[1])))
    found.update(in_pragmas(job, text, mode))
    found.update(("setting", mode, number, word) for number, word in enumerate(shown))
    root, fills, tells = None, {"calls": 0, "notices": 0}, answer[2].startswith("notices")
    for line in answer[2:]:
        kind, *rest = line.split(" ")
        if kind in fills:
            fills[kind] += len(rest)
        if kind == "root":
            root = roots[int(rest[0])]
            if rest[1] == "refused" and rest[2] in ("10", "11"):
                found.add(("root", rest[2], fills["calls" if rest[2] == "10" else "notices"] > 0, tells))
            elif rest[1] == "refused":
                found.add(("root", rest[2], spoken_of(rest[2], int(rest[3]), text, root, ROOTS)))
        elif kind == "calls":
            self_allowed, node = read_root(root, text)
            found.update(in_tree(node, text, mode, plugins, self_allowed))
            found.update(("root command", mode, command) for command in commands(root, ROOTS))
            out = commands(bytes.fromhex("".join(rest)), CALLS)
            found.update(("call command", mode, command) for command in out)
            found.update(("neighbours", mode[0], pair) for pair in zip(out, out[1:]))
        elif kind == "notices":
            found.add(("room left", fills[kind] < 1024, tells))
            found.add(("notices", tuple(re.findall("c[012]", line))[:3]))
        elif kind == "records":
            found.add(("records", line))
    return found


def main():
    with open(sys.argv[1], "rb") as file:
        inputs = list(unpack(file.read()))
    candidates = []
    for case, ours, theirs in zip(inputs, oracle_answers(inputs, sys.argv[2]), cases(sys.argv[3]), strict=True):
        if len(ours) != len(theirs) or not all(map(agrees, ours, theirs)):
            sys.exit(f"{ours[0]}: the two differ")
        answer = [other if " refused" in mine else mine for mine, other in zip(ours, theirs)]
        size = sum(map(len, case[:2])) + sum(map(len, case[2])) + sum(map(len, answer)) // 3
        candidates.append((size, case, answer, covered(*case, answer)))
    candidates.sort(key=lambda candidate: candidate[0])
    missing = set().union(*(candidate[3] for candidate in candidates))
    total, chosen = len(missing), []
    worth = lambda number: -len(candidates[number][3] & missing) / (40 + candidates[number][0])
    heap = [(worth(number), number) for number in range(len(candidates))]
    heapq.heapify(heap)
    while missing:
        # worth only falls: the first whose worth still stands is the best
        said, number = heapq.heappop(heap)
        now = worth(number)
        if now > said:
            heapq.heappush(heap, (now, number))
        else:
            chosen.append(candidates[number])
            missing -= candidates[number][3]
    with open(sys.argv[4], "wb") as file:
        file.writelines(pack(*case) for _, case, _, _ in chosen)
    with open(sys.argv[5], "w") as file:
        for number, (_, _, answer, _) in enumerate(chosen):
            file.writelines(line + "\n" for line in [f"case {number}", *answer[1:]])
    print(f"{len(chosen)} cases, which cover {total} things that the large list covers")


if __name__ == "__main__":
    main()

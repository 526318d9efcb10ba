#!/usr/bin/env python3
"""Counts the places of docs/DESIGN-PASS.md in a tree: `python3 tools/places.py [--list] [TREE]`.

Each point is counted by a pattern over crates/*/src, so that the same command can count before and after. A pattern finds
candidates: what is kept has a line `// kept: REASON` in the item or right before it, and is counted apart."""
import re
import sys
from collections import defaultdict
from pathlib import Path

FAILING = {
    "Absent", "Nothing", "Bad", "Cut", "Wrong", "Refused", "Stop", "Invalid", "Unknown", "Outside", "Forged", "Object", "Bare", "Full",
}


def items(text):
    """The items of a file: (kind, name, comment before, text)."""
    found = []
    for m in re.finditer(r"^(?P<indent>[ ]*)(?:#\[[^\n]*\]\n[ ]*)*(?:pub(?:\([a-z]+\))? )?(?:const )?(?:unsafe )?(?:extern \"C\" )?"
                         r"(?P<kind>fn|enum|struct|impl|trait)\b[ ]*(?P<name>\w+)?", text, re.M):
        end = text.find("\n" + m["indent"] + "}", m.end())
        line = text.find("\n", m.end())
        if m["kind"] == "struct" and ";" in text[m.end():line]:
            end = line
        before = text[:m.start()].rstrip("\n").split("\n")
        comment = []
        while before and re.match(r"\s*(//|#\[)", before[-1]):
            comment.append(before.pop())
        found.append((m["kind"], m["name"] or "", "\n".join(comment), text[m.start():end + 2]))
    return found


def body(item):
    """A function's body, without its contract."""
    m = re.search(r"\n\s*\{\n", item)
    return item[m.end():] if m else item[item.find("{") + 1:]


def kept(comment, item):
    return "// kept:" in comment or "// kept:" in item


def enums(kind, name, comment, item):
    if kind != "enum":
        return None
    variants = re.findall(r"^\s+(\w+)(\([^)]*\)|\s*\{[^}]*\})?(?: = [^,]*)?,", item, re.M)
    names = {v for v, _ in variants}
    if len(variants) == 2 and sum(1 for _, f in variants if f) == 1:
        return "Option"
    if names & FAILING and any(f for _, f in variants):
        return "Result"
    return None


def flags(kind, name, comment, item):
    if kind == "struct" and re.search(r": bool,", item) and re.search(r": (?!bool)\w", item) and not re.search(r"\bphantom\b", item):
        return "flag"
    return None


def sentinels(kind, name, comment, item):
    if kind != "fn":
        return None
    if re.search(r"\bor 0\b|\b0 where\b|: 0 for|16 for any other|or the end\b|, or n\b|0 and 0", comment):
        return "sentinel"
    return None


def loops(kind, name, comment, item):
    if kind != "fn":
        return None
    n = 0
    for m in re.finditer(r"^(\s*)(?:'\w+: )?(?:let [^\n]*= )?(?:while [^\n]*|loop) \{\n(.*?)^\1\}", body(item), re.M | re.S):
        if re.search(r"^\s*(\w+) (?:\+=|-=|= \1 [+-]) ", m[2], re.M):
            n += 1
    return n or None


def conversions(kind, name, comment, item):
    if kind != "fn":
        return None
    b = body(item)
    m = re.fullmatch(r"\s*match [\w.]+ \{\n(.*?)\n\s*\}\s*\}?\s*", b, re.S)
    if m and all(re.fullmatch(r"\s*[\w:|_(), ]+ => (?:[\w:]+|0x\w+|\d+),", line) for line in m[1].split("\n")):
        return "conversion"
    if re.match(r"same|worse|earlier|is_at$|equal", name):
        return "equality or order"
    if re.match(r"kept$|pure_byte$|zeros$|capped$", name):
        return "conversion"
    return None


def switches(kind, name, comment, item):
    if kind == "fn" and len(re.findall(r"^\s*if same\(\w+, b\"", body(item), re.M)) > 3:
        return "table"
    if kind == "enum" and re.search(r"looked for|stops at|in one walk|which step", comment):
        return "switch"
    return None


def buffers(kind, name, comment, item):
    if kind == "struct" and re.search(r": \[\w+; \w+\],", item):
        return "array and length"
    if kind == "fn":
        head = item[:item.find("{\n")]
        if re.search(r"\w+: \[\w+; \d+\],\s+n: usize", head) or re.search(r"\w+: \[\w+; \d+\], n: usize", head):
            return "array and length"
    return None


POINTS = [
    ("1", "own Option or Result", enums),
    ("1", "flag beside a value", flags),
    ("1", "number that stands for none", sentinels),
    ("3", "loops that count by hand", loops),
    ("4", "by hand: conversion, equality, order", conversions),
    ("6", "arrays with a length beside", buffers),
    ("7", "switch on a step, table of functions", switches),
]


def shape(item):
    """A function without what a twin may differ in: names of its own, types, literals and what it calls."""
    head = item[:item.find("\n{\n")] if "\n{\n" in item else ""
    arity = head.count(":")
    b = re.sub(r"//[^\n]*", "", body(item))
    b = re.sub(r'b?"[^"]*"|b\'[^\']*\'|\b0x\w+|\b\d[\w]*', "L", b)
    b = re.sub(r"\b(?:u8|u16|u32|u64|usize|bool)\b", "T", b)
    words = {"if", "else", "match", "let", "mut", "return", "while", "loop", "for", "in", "as", "break", "continue", "true", "false", "L", "T", "Some", "None", "Ok", "Err"}
    order = {}

    def name(m):
        w = m[0]
        if w in words:
            return w
        if re.match(r"[A-Z]", w):
            return "C"
        return order.setdefault(w, "v%d" % len(order))

    return arity, re.sub(r"\s+", " ", re.sub(r"\b[A-Za-z_]\w*\b", name, b))


def twins(functions):
    groups = defaultdict(list)
    for crate, where, name, comment, item in functions:
        arity, b = shape(item)
        if len(b) >= 60:
            groups[(crate, arity, b)].append((where, name, comment, item))
    return [g for g in groups.values() if len(g) > 1]


def facts(functions):
    """Facts that stand in the clauses of three functions of a crate or more, and parameters that three of them share."""
    clauses, params = defaultdict(set), defaultdict(set)
    for crate, where, name, comment, item in functions:
        head = item[:item.find("\n{\n")] if "\n{\n" in item else item
        for m in re.finditer(r"requires(?: \w+)? \{ (.*?) \}$", head, re.M):
            clauses[(crate, m[1])].add(name)
        found = re.search(r"fn \w+(?:<[^>]*>)?\((.*?)\)(?: ->|\n|$)", head, re.S)
        names = re.findall(r"(\w+): (&?(?:mut )?[^,\n]+)", found[1]) if found else []
        names = tuple(sorted(n for n, _ in names))
        for i, a in enumerate(names):
            for j in range(i + 1, len(names)):
                for k in range(j + 1, len(names)):
                    params[(crate, (a, names[j], names[k]))].add(name)
    groups = defaultdict(set)
    for (crate, names), fs in params.items():
        if len(fs) >= 3:
            groups[(crate, frozenset(fs))].update(names)
    return ([(c, f, sorted(n)) for (c, f), n in clauses.items() if len(n) >= 3],
            [(c, sorted(names), sorted(fs)) for (c, fs), names in groups.items()])


def main():
    args = [a for a in sys.argv[1:] if a != "--list"]
    listing = "--list" in sys.argv[1:]
    tree = Path(args[0]) if args else Path(__file__).resolve().parent.parent
    counts, kepts, lines, functions = defaultdict(int), defaultdict(int), defaultdict(list), []
    for path in sorted(tree.glob("crates/*/src/**/*.rt")):
        crate = path.relative_to(tree / "crates").parts[0]
        for kind, name, comment, item in items(path.read_text()):
            where = "%s::%s" % (crate, name)
            if kind == "fn":
                functions.append((crate, where, name, comment, item))
            for point, what, test in POINTS:
                found = test(kind, name, comment, item)
                if found is None:
                    continue
                n = found if isinstance(found, int) else 1
                (kepts if kept(comment, item) else counts)[(point, what)] += n
                lines[(point, what)].append(where + (" (kept)" if kept(comment, item) else ""))
    for point, what, _ in POINTS:
        print("point %s  %-40s %4d  kept %d" % (point, what, counts[(point, what)], kepts[(point, what)]))
        if listing:
            print("    " + " ".join(lines[(point, what)]))
    groups = twins(functions)
    still = [g for g in groups if not any(kept(c, i) for _, _, c, i in g)]
    print("point 2  %-40s %4d  kept %d" % ("functions in groups of one shape", sum(map(len, still)), sum(map(len, groups)) - sum(map(len, still))))
    if listing:
        for g in groups:
            print("    " + " ".join(w for w, _, _, _ in g) + ("" if g in still else " (kept)"))
    clauses, params = facts(functions)
    print("point 5  %-40s %4d" % ("facts required by three functions", len(clauses)))
    print("point 5  %-40s %4d" % ("parameters shared by three functions", len(params)))
    if listing:
        for crate, fact, names in clauses:
            print("    %s: %s: %s" % (crate, fact, " ".join(names)))
        for crate, names, fs in params:
            print("    %s: (%s): %d functions" % (crate, ", ".join(names), len(fs)))
    answers = sum(len(re.findall(r"^(?:pub )?[\w\-+]+ : goal\.", p.read_text(), re.M)) for p in tree.glob("crates/*/proofs/**/Answers.antt"))
    print("point 8  %-40s %4d" % ("answers written by hand", answers))


main()

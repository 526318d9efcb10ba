#!/usr/bin/env python3
"""What moved since a revision, by name and by count of lines, for docs/CHANGES.md: python3 tests/moved.py REVISION

Definitions are the declarations of crates/*/specs, laws those of crates/*/proofs but for the proofs of functions, contracts the clauses of a function of a library
(its signature with them), code its body. A name counts as moved where its text differs once spaces are left out, or where it is there on one side only. The table
behind has lines added and removed as git counts them.
"""

import os
import re
import subprocess
import sys

sys.dont_write_bytecode = True
ROOT = os.path.dirname(os.path.dirname(os.path.abspath(__file__)))
sys.path.insert(0, os.path.join(ROOT, "tests", "edits"))
from functions import HEAD  # noqa: E402

DECLARED = re.compile(r"^(?:  )?(?:(?:abbrev|unfoldable|pub|data|record|mutual|private) )*(\S+) ?:(?=\s)", re.M)
KINDS = [
    ("definitions", r"crates/\w+/specs/"),
    ("code and contracts", r"crates/(?!\w+_test/|replay/)\w+/src/"),
    ("proofs of functions", r"crates/(?!\w+_test/|replay/)\w+/proofs/(?:.*/)?(?:Answers|Invariants|Proof)\.antt$"),
    ("laws", r"crates/(?!\w+_test/|replay/)\w+/proofs/"),
    ("edits", r"crates/\w+/must-fail/|tests/edits/\w+/"),
    ("test programs", r"crates/(?:\w+_test|replay)/"),
    ("hosts", r"hosts/"),
    ("other tests and tools", r"tests/|tools/|\.ci/"),
    ("papers", r"docs/|README|NOTICE"),
]


def git(*words):
    return subprocess.run(["git", *words], cwd=ROOT, capture_output=True, text=True, check=True).stdout


def differing(revision):
    """Each file that differs: lines added and removed, its name then and now."""
    words = iter(git("diff", "--numstat", "-M", "-z", revision).split("\0"))
    for word in words:
        if word:
            added, removed, path = word.split("\t")
            before = path or next(words)
            yield added, removed, before, path or next(words)
    for path in git("ls-files", "--others", "--exclude-standard").splitlines():
        yield str(now(path).count("\n")), "0", path, path


def then(revision, path):
    done = subprocess.run(["git", "show", f"{revision}:{path}"], cwd=ROOT, capture_output=True, text=True)
    return done.stdout if done.returncode == 0 else ""


def now(path):
    full = os.path.join(ROOT, path)
    return open(full, encoding="utf-8").read() if os.path.exists(full) else ""


def bare(text):
    return re.sub(r"\s+", " ", re.sub(r"(?:--|//)[^\n]*", "", text)).strip()


def declared(text):
    """Name -> text of each declaration of a file of antt, comments and spaces left out."""
    found = [each for each in DECLARED.finditer(text) if each[1] not in ("use", "mod")]
    ends = [each.start() for each in found[1:]] + [len(text)]
    return {each[1]: bare(text[each.start():end]) for each, end in zip(found, ends)}


def promised(text):
    """Name -> contract, and name -> body, of each function of a file of Rattle."""
    contracts, bodies = {}, {}
    for found in HEAD.finditer(text):
        whole = text[found.start():text.index("\n}\n", found.end()) + 3]
        opening = max(whole.find("\n{\n"), 0) or whole.index("{")
        contracts[found[2]], bodies[found[2]] = bare(whole[:opening]), bare(whole[opening:])
    return contracts, bodies


def told(title, before, after):
    moved = {"new": sorted(set(after) - set(before)), "gone": sorted(set(before) - set(after)), "changed": sorted(name for name in before if name in after and before[name] != after[name])}
    said = "; ".join(f"{word} {', '.join(f'`{name}`' for name in names)}" for word, names in moved.items() if names)
    stayed = len(set(before) & set(after)) - len(moved["changed"])
    return [f"  {title}: {said}; {stayed} stayed"] if said else []


def main():
    if len(sys.argv) != 2:
        raise SystemExit(__doc__.split("\n")[0])
    revision, sums = sys.argv[1], {name: [0, 0, 0] for name, _ in KINDS}
    for added, removed, before, path in differing(revision):
        kind = next((name for name, form in KINDS if re.match(form, path)), None)
        if kind and added != "-":
            sums[kind] = [sums[kind][0] + 1, sums[kind][1] + int(added), sums[kind][2] + int(removed)]
        lines = []
        if kind in ("definitions", "laws") and path.endswith(".antt"):
            lines = told(kind, declared(then(revision, before)), declared(now(path)))
        elif kind == "code and contracts":
            (contracts, bodies), (later, code) = promised(then(revision, before)), promised(now(path))
            lines = told("contracts", contracts, later) + told("code", bodies, code)
        if lines:
            print("\n".join([path, *lines]))
    print("\n| | files changed or moved | lines added | removed |\n|---|---|---|---|")
    for name, (files, added, removed) in sums.items():
        print(f"| {name} | {files} | {added} | {removed} |")


if __name__ == "__main__":
    main()

"""Edits that must be refused: their files, and what each concerns.

An edit is a file with lines `file: PATH` (below the crate's folder), `old: TEXT` and `new: TEXT`, as rt takes it; other lines are comments. Those of `rt ci` stand
in crates/CRATE/must-fail, the others in tests/edits/CRATE.

Steps and goals are named after the code, a test after what it compares. Where an edit changes a name that the function's proof cites, a comment
`# names: OLD NEW, ..` has the new one: the proof is then read with it, so that what fails is a goal and not a name.
"""

import os
import re

from functions import functions

HERE = os.path.dirname(os.path.abspath(__file__))
ROOT = os.path.dirname(os.path.dirname(HERE))
NAMES = "# names: "
# what a name of antt is made of, besides its dots
LETTER = r"[\w'\-]"


TYPE = re.compile(r"^(?:pub )?(?:struct|enum) (\w+)", re.M)
VARIANT = re.compile(r"\s*\w+ = \w+,?$")
PASSED = re.compile(r"\A\s*\{\n    [^\n]*(?:\.|::)(\w+)\([^()\n]*\)\n\}\n")


class Edit:
    def __init__(self, crate, path):
        self.crate, self.path = crate, path
        self.label = f"{crate}/{os.path.basename(path)[:-len('.edit')]}"
        self.pairs, self.names, file, old = [], {}, None, None
        with open(path, encoding="utf-8") as lines:
            self.text = lines.read()
        for line in self.text.split("\n"):
            if line.startswith("file: "):
                file = line[6:]
            elif line.startswith("old: "):
                old = line[5:]
            elif line.startswith("new:"):
                self.pairs.append((file, old, line[5:]))
            elif line.startswith(NAMES):
                self.names.update(pair.split() for pair in line[len(NAMES):].split(","))

    def read(self, name):
        with open(os.path.join(ROOT, "crates", self.crate, name), encoding="utf-8") as file:
            return file.read()

    def applied(self, texts, every):
        """What it makes of the crate's files, over the texts that other edits made; None where an old text is not there exactly once."""
        made = {}
        for name, old, new in self.pairs:
            text = made.get(name) or texts.get(name) or self.read(name)
            if text.count(old) != 1:
                return None
            made[name] = text.replace(old, new)
        if self.names:
            for function in self.concerns(every):
                for name in function.proofs():
                    made[name] = self.renamed(made.get(name) or texts.get(name) or self.read(name), function)
        return made

    def types(self):
        """The types whose declarations it changes."""
        found = set()
        for name, old, _ in self.pairs:
            text = self.read(name) if name.startswith("src/") else ""
            head = list(TYPE.finditer(text, 0, text.find(old) + len(old))) if old in text else []
            if head and "\n}\n" not in text[head[-1].start():text.index(old)]:
                found.add(head[-1][1])
        return found

    def renamed(self, text, function):
        """The text of a proof of the function with the new names: of functions that call one another only what answers this one's goals."""
        word = re.compile(rf"(?<!{LETTER})(?:{'|'.join(map(re.escape, self.names))})(?!{LETTER})")
        parts = text.split("\n\n")
        return "\n\n".join(word.sub(lambda found: self.names[found[0]], part) if function.has(part) else part for part in parts)

    def concerns(self, every):
        """The functions whose bodies it changes, or whose number of an enum's variant; none where it changes a definition, a contract or a type otherwise."""
        touched = set()
        for name, old, _ in self.pairs:
            if not name.startswith("src/"):
                return set()
            text = self.read(name)
            if touched and old not in text:
                continue  # where an earlier pair changed the text already
            at = text.index(old)
            here = [f for f in every if f.file == name[len("src/"):] and f.start <= at < f.end]
            if here and at < here[0].start + here[0].body_at:
                return set()
            constant = re.match(r"(?:pub )?const (\w+)", text[text.rfind("\nconst ", 0, at) + 1:]) if not here else None
            if constant:
                here = [f for f in every if re.search(rf"\b{constant[1]}\b", f.body)]
            if VARIANT.match(old):
                here = [f for f in every if f.of and any(f.of.startswith(each) for each in self.types()) and "self as " in f.body]
            if not here:
                return set()
            touched.update(here)
        return touched


def of_crate(crate):
    """All edits of a crate: those that `rt ci` tries, and the others."""
    found = []
    for folder in (os.path.join(ROOT, "crates", crate, "must-fail"), os.path.join(HERE, crate)):
        names = sorted(os.listdir(folder)) if os.path.isdir(folder) else []
        found += [Edit(crate, os.path.join(folder, name)) for name in names if name.endswith(".edit")]
    return found


def libraries():
    """The crates that are no programs."""
    folder = os.path.join(ROOT, "crates")
    return sorted(name for name in os.listdir(folder) if os.path.exists(os.path.join(folder, name, "src", "lib.rt")))


def programs():
    """The programs that have edits."""
    return sorted(name for name in os.listdir(HERE) if os.path.exists(os.path.join(ROOT, "crates", name, "src", "main.rt")))


def uncovered(crate):
    """The exported functions and methods with fewer than two edits of their own: of the body, of a private function that no other exported one reaches, or
    of the type whose method it is."""
    from functions import reached
    every = functions(ROOT, crate)
    edits = of_crate(crate)
    touched = [edit.concerns(every) for edit in edits]
    types = [edit.types() for edit in edits]
    reach = {f: {f} | reached(f, lambda g: not g.exported) for f in every if f.exported}
    for function in reach:
        own = {g for g in reach[function] if not any(g in reach[other] for other in reach if other is not function)}
        count = sum(bool(each & own) for each in touched)
        # what a method gives for an enum may stand at its variants
        count += sum(bool(function.of) and any(function.of.startswith(name) for name in each) for each in types)
        # one that only calls a method has the method's
        passed = PASSED.search(function.body[function.body_at:])
        if passed:
            count += sum(any(f.of and f.name == passed[1] for f in each) for each in touched)
        if count < 2:
            yield function.path, count

"""The functions and methods of a crate's source, as `rt fmt` lays it out: where each stands, whether it is exported, what it calls, and where its proof stands."""

import os
import re

HEAD = re.compile(r'^(?:#\[[^\n]*\]\n)*(pub )?(?:pub\(\w+\) )?(?:extern "C" )?fn (\w+)', re.M)
# an impl's parameters, its trait with arguments, its type, and what stands in it
PARAMETERS = r"(?:<((?:->|[^<>]|<(?:->|[^<>])*>)*)>)?"
IMPL = re.compile(rf"^impl{PARAMETERS} (?:(\w+){PARAMETERS} for )?([^{{}}\n]+?)(?: \{{|\nwhere\n(?:    [^\n]*\n)+\{{)\n(.*?)^\}}\n", re.M | re.S)
PRIVATE = re.compile(r"^(?:struct|enum|trait) (\w+)", re.M)
METHOD = re.compile(r"^(?:    #\[[^\n]*\]\n)*    (pub )?(?:pub\(\w+\) )?fn (\w+)", re.M)
TYPE = re.compile(r"^(?:pub )?(?:struct|enum) (\w+)", re.M)
CYCLE = re.compile(r"^ *#\[cycle\((\w+)\)\]$", re.M)
CALL = re.compile(r"\b(\w+)\(")
DECLARED = re.compile(r"^(?:(?:abbrev|unfoldable|pub|private) )*(\S+) ?:(?=\s)", re.M)


def module_of(file):
    module = file[:-len(".rt")].split("/")
    return module if module not in (["lib"], ["main"]) else []


def type_name(text, parameters=()):
    """A type as the check names it in paths, but for parameters: `Pen<'a>` is Pen, `&'a [u8]` RefSliceU8, `[u8; N]` ArrayU8, `()` Unit."""
    text = re.sub(r"'\w+ ?", "", text).strip()
    for form, name in ((r"&(?:mut )?(.*)", "Ref"), (r"\[(.*); \w+\]", "Array"), (r"\[(.*)\]", "Slice")):
        found = re.fullmatch(form, text)
        if found:
            return name + type_name(found[1], parameters)
    if text == "()":
        return "Unit"
    if text.startswith("("):
        parts = text.strip("()").split(", ")
        return f"Tuple{len(parts)}" + "".join(type_name(part, parameters) for part in parts)
    name = re.match(r"\w*", text.split("<")[0].split("::")[-1])[0]
    return name[:1].upper() + name[1:] if name not in parameters else ""


def impl_name(block):
    """What the check calls an `impl`: its type, with its trait and the trait's arguments behind it."""
    parameters = re.findall(r"(?:^|, )(?:const )?(\w+)", block[1] or "")
    arguments = [type_name(argument, parameters) for argument in (block[3] or "").split(", ")]
    return type_name(block[4], parameters) + (block[2] or "") + "".join(arguments)


class Function:
    """A function, or with `of` a method of an `impl` block: of a type, or of a trait for a type."""

    def __init__(self, root, crate, file, found, text, of=""):
        margin = "    " if of else ""
        self.exported, self.name, self.file, self.of = bool(found[1]), found[2], file, of
        self.crate, self.module = crate, module_of(file) + ([of] if of else [])
        # a body ends at the first brace that stands where its function begins
        self.start, self.end = found.start(), text.index(f"\n{margin}}}\n", found.end()) + len(margin) + 3
        self.lines = range(text.count("\n", 0, self.start) + 1, text.count("\n", 0, self.end) + 1)
        self.body = text[self.start:self.end]
        # with a contract the brace that opens the body stands alone on its line
        self.body_at = max(self.body.find(f"\n{margin}{{\n"), 0) or self.body.index("{")
        cycle = CYCLE.search(self.body)
        self.cycle = cycle and cycle[1]
        self.folder = os.path.join(root, "crates", crate)
        self.calls, self.members, self.made_of = set(), [self.name], ""

    @property
    def path(self):
        """As the check calls it."""
        return "::".join([self.crate, *self.module, self.name])

    def folders(self):
        """The folders of its proof below the crate's: its own, or that of the functions that call one another."""
        names = [self.name, f"+{self.name}"] if not self.cycle else [f"+{self.cycle}"]
        places = [self.module, self.module[:-1]] if self.of and self.cycle else [self.module]
        return ["/".join(["proofs", *place, name]) for place in places for name in names]

    def proofs(self):
        """The files that cite its steps and goals, below the crate's folder."""
        # a method's name is often that of others too
        parts = 2 if self.of else 1
        found, cited = [], [re.compile(rf"\.{re.escape('.'.join(folder.split('/')[-parts:]))}\.(?:Goals|Given)\b") for folder in self.folders()]
        for at, folders, files in os.walk(os.path.join(self.folder, "proofs")):
            folders.sort()
            for name in sorted(files):
                path = os.path.relpath(os.path.join(at, name), self.folder)
                with open(os.path.join(self.folder, path), encoding="utf-8") as file:
                    if os.path.dirname(path) in self.folders() or any(word.search(file.read()) for word in cited):
                        found.append(path)
        return found

    def owns(self, declaration):
        """Whether a declaration of its proof's folder is its own: where functions call one another, a goal's name begins with its function's."""
        goal = re.sub(r"^(?:invariant|decreases)-", "", declaration) + "-"
        fitting = [name for name in self.members if goal.startswith(name + "-")]
        return len(self.members) == 1 or max(fitting, key=len, default="") == self.name

    def has(self, text):
        """Whether a declaration of a proof, with what answers it, is its own."""
        found = DECLARED.search(text)
        return not found or self.owns(found[1])


def found_in(root, crate, file, text):
    """The functions and methods of a file. A trait's method is exported where neither the trait nor the type is the file's own."""
    found = [Function(root, crate, file, head, text) for head in HEAD.finditer(text)]
    own = {name[1] for name in PRIVATE.finditer(text)}
    for block in IMPL.finditer(text):
        methods = [Function(root, crate, file, head, text, impl_name(block)) for head in METHOD.finditer(text, block.start(5), block.end(5))]
        for method in methods:
            method.made_of = type_name(block[4]) if block[2] else ""
        for method in methods if block[2] and not own & {block[2], type_name(block[4])} else []:
            method.exported = True
        found += methods
    return found


def functions(root, crate):
    """All functions and methods of crates/CRATE/src, each with those of the crate that it calls, itself through others among them."""
    every, homes, src = [], {}, os.path.join(root, "crates", crate, "src")
    for folder, _, files in os.walk(src):
        for name in sorted(files):
            path = os.path.join(folder, name)
            with open(path, encoding="utf-8") as file:
                text = file.read()
            bare = re.sub(r"//[^\n]*", lambda found: " " * len(found[0]), text)
            every += found_in(root, crate, os.path.relpath(path, src), bare)
            homes.update((found[1], module_of(os.path.relpath(path, src))) for found in TYPE.finditer(bare))
    named = {}
    for function in every:
        # a type's own methods are named where the type stands, wherever they do
        if function.of in homes:
            function.module = [*homes[function.of], function.of]
        named.setdefault(function.name, []).append(function)
    for function in every:
        body = function.body[function.body.index("fn " + function.name) + 3 + len(function.name):]
        for name in CALL.findall(body):
            function.calls.update(named.get(name, []))
        # who makes a value of a type has the type's traits called by std, as an iterator's
        function.calls.update(each for each in every if each.made_of and re.search(rf"\b{each.made_of} \{{", body))
        if function.cycle:
            function.members = [each.name for each in every if (each.file, each.cycle) == (function.file, function.cycle)]
    return every


def reached(function, within=lambda callee: True):
    """The functions that it reaches by calls, through those of which `within` holds."""
    found, todo = set(), [function]
    while todo:
        for callee in todo.pop().calls:
            if callee not in found and within(callee):
                found.add(callee)
                todo.append(callee)
    return found

#!/usr/bin/env python3
"""Prints what Babel, esbuild, the Rust and the port give for each sample of samples.py: OXC_SRC=FOLDER python3 tests/side_by_side/show.py

FOLDER as for tests/rust/run. Needs node with Babel 7 (Debian's node-babel7), esbuild, cargo, and crates/replay/out/replay, which `rt run` there builds.
The Rust's and the port's tapes are printed by printer.py. So that only what matters is left to see, all four are printed anew by esbuild, a statement is put on
one line, esbuild's own names of imports get an underscore like the others', and imports of one source are joined. What is the same is then shown once.
"""

import json
import os
import pathlib
import re
import subprocess
import sys
import tempfile

HERE = pathlib.Path(__file__).resolve().parent
TOP = HERE.parent.parent
sys.path.append(str(TOP / "tests" / "rust"))

from cases import pack
from printer import printed
from samples import CLASSIC, DEVELOPMENT, MODULE, PURE, SELF, SAMPLES, SOURCE, THROW


def laid_out(code):
    """Printed anew, one statement to a line."""
    run = subprocess.run(["esbuild", "--loader=js", "--charset=utf8"], input=code, capture_output=True, text=True, check=True)
    lines, depth = [], 0
    for line in run.stdout.split("\n"):
        if depth:
            closes = line.strip()[:1] in (")", "]") or lines[-1][-1:] in ("(", "[")
            lines[-1] += line.strip() if closes else " " + line.strip()
        elif line.strip():
            lines.append(line)
        depth += sum(line.count(sign) for sign in "([") - sum(line.count(sign) for sign in ")]")
    return joined(lines)


def joined(lines):
    """Imports of one source that follow each other as one."""
    out = []
    for line in lines:
        names, last = re.match(r"import \{ (.*) \}( from .*)", line), re.match(r"import \{ (.*) \}( from .*)", out[-1]) if out else None
        if names and last and names[2] == last[2]:
            out[-1] = f"import {{ {last[1]}, {names[1]} }}{names[2]}"
        else:
            out.append(line)
    return out


def underscored(line):
    """esbuild's `jsx` as `_jsx`."""
    names = re.match(r"import \{ (.*) \}( from .*)", line)
    if names:
        return "import { " + ", ".join(f"{name} as _{name}" for name in names[1].split(", ")) + " }" + names[2]
    return re.sub(r"(?<![\w./])(jsx|jsxs|jsxDEV|Fragment|createElement)\b", r"_\1", line)


def babel():
    asked = []
    for sample in SAMPLES:
        flags = sample.flags
        names = ["development"] if flags & DEVELOPMENT else ["jsx"]
        names = [name for bit, name in ((SELF, "self"), (SOURCE, "source")) if flags & bit] + names
        options = {"runtime": "classic" if flags & CLASSIC else "automatic", "throwIfNamespace": bool(flags & THROW)}
        if flags & PURE:
            options["pure"] = True
        asked.append({"source": sample.source, "module": bool(flags & MODULE), "names": names, "options": options})
    environment = dict(os.environ, NODE_PATH=os.environ.get("NODE_PATH", "/usr/share/nodejs"))
    run = subprocess.run(["node", str(HERE / "babel.js")], input=json.dumps(asked), env=environment, capture_output=True, text=True, check=True)
    for answer in json.loads(run.stdout):
        yield ["refused: " + answer["refused"]] if isinstance(answer, dict) else laid_out(answer)


def esbuild():
    for sample in SAMPLES:
        flags = sample.flags
        words = ["--jsx=transform" if flags & CLASSIC else "--jsx=automatic", "--loader=jsx", "--sourcefile=/sheet.jsx", "--charset=utf8"]
        words += ["--jsx-dev"] if flags & DEVELOPMENT else []
        words += [] if flags & MODULE else ["--format=cjs"]
        run = subprocess.run(["esbuild", *words], input=sample.source, capture_output=True, text=True)
        if run.returncode:
            yield ["refused: " + run.stderr.split("ERROR] ")[1].split("\n")[0]]
        else:
            yield list(map(underscored, laid_out(run.stdout)))


def visible(letters):
    return letters.replace("\t", "<TAB>").replace("\u00a0", "<NBSP>")


def by_tapes(run):
    """What a program prints for the samples' cases, as JavaScript."""
    answers = run.split("case ")[1:]
    for sample, answer in zip(SAMPLES, answers, strict=True):
        given = printed(sample, answer.strip("\n").split("\n")[1:])
        yield [given] if isinstance(given, str) else laid_out(given[0]) + given[1]


def main():
    environment = dict(os.environ, OXC_SRC=str(pathlib.Path(os.environ["OXC_SRC"]).resolve()))
    subprocess.run(["cargo", "build", "--quiet", "--release", "--offline", "-j1"], cwd=TOP / "tests/rust", env=environment, check=True)
    with tempfile.NamedTemporaryFile() as file:
        file.write(b"".join(pack(sample.job, sample.source.encode(), [tape for _, tape in sample.roots]) for sample in SAMPLES))
        file.flush()
        rust = subprocess.run([TOP / "tests/rust/target/release/oracle", file.name], capture_output=True, text=True, check=True).stdout
        file.seek(0)
        port = subprocess.run([TOP / "crates/replay/out/replay"], stdin=file, capture_output=True, text=True, check=True).stdout
    columns = {"Babel": babel(), "esbuild": esbuild(), "the Rust": by_tapes(rust), "here": by_tapes(port)}
    for number, sample in enumerate(SAMPLES):
        print(f"{number + 1}. {sample.name}\n")
        print("    " + visible(sample.source).replace("\n", "\n    ") + "\n")
        shown = {}
        for name, answers in columns.items():
            shown.setdefault("\n".join(next(answers)), []).append(name)
        for lines, names in shown.items():
            print(("all four" if len(names) == 4 else ", ".join(names)) + ":\n    " + visible(lines).replace("\n", "\n    "))
        print()


if __name__ == "__main__":
    main()

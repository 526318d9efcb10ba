#!/usr/bin/env python3
"""Which places of the Rust the cases reach: python3 coverage.py CASES

Marks every block and every match arm in a copy of the Rust (a folder that is removed again), builds the oracle from it, runs it on
the cases and prints the lines that were not reached. OXC_SRC names the original, as for the build.
"""

import os
import re
import shutil
import subprocess
import sys
import tempfile

HERE = os.path.dirname(os.path.abspath(__file__))
FILES = ["comments", "diagnostics", "jsx_impl", "jsx_self", "jsx_source", "options"]
FILES = [f"jsx/{name}.rs" for name in FILES] + ["common/module_imports.rs"]
# lines that end in a brace and don't open a block of statements
NO_BLOCK = re.compile(r"\b(struct|enum|impl|trait|mod|use)\b|\bmatch\b.*\{$|\b[A-Z]\w*(::\w+)? \{$")
ARM = re.compile(r"^(.*?=> )(?!\{)(.+),$")


def mark(place):
    return '{ static ONCE: std::sync::Once = std::sync::Once::new(); ONCE.call_once(|| eprintln!("reached %s")); }' % place


def marked(name, text, places):
    lines = []
    for number, line in enumerate(text.split("\n"), 1):
        place, bare = f"{name}:{number}", line.strip()
        arm = ARM.match(line)
        if bare.startswith(("//", "#")):
            pass
        elif bare.endswith("{") and (not NO_BLOCK.search(bare) or re.search(r"-> [^{]*\{$", bare)):
            line += "\n" + mark(place)
            places[place] = bare
        elif arm and "matches!" not in bare and all(bare.count(a) == bare.count(b) for a, b in ("()", "{}")):
            line = f"{arm[1]}{{ {mark(place)} {arm[2]} }},"
            places[place] = bare
        lines.append(line)
    return "\n".join(lines)


def main():
    places = {}
    with tempfile.TemporaryDirectory() as folder:
        copy = os.path.join(folder, "src")
        shutil.copytree(os.environ["OXC_SRC"], copy, copy_function=shutil.copyfile)
        for place, _, _ in os.walk(copy):
            os.chmod(place, 0o755)
        for name in FILES:
            with open(os.path.join(copy, name)) as file:
                text = file.read()
            with open(os.path.join(copy, name), "w") as file:
                file.write(marked(name, text, places))
        target = os.path.join(HERE, "target", "coverage")
        environment = dict(os.environ, OXC_SRC=copy, CARGO_TARGET_DIR=target)
        subprocess.run(["cargo", "build", "--quiet", "--offline", "-j1"], cwd=HERE, env=environment, check=True)
        run = subprocess.run([os.path.join(target, "debug", "oracle"), sys.argv[1]], stdout=subprocess.DEVNULL,
                             stderr=subprocess.PIPE, text=True, check=True)
    reached = set(re.findall(r"^reached (\S+)$", run.stderr, re.M))
    for place, line in places.items():
        if place not in reached:
            print(place, line)
    print(f"{len(places)} places, {len(reached)} reached")


if __name__ == "__main__":
    main()

"""Computes generated cases from the definitions of crates/definitions and compares them with model.py: definitions.py [CASES] [SEED]

The cases have one root each. They become tables as in crates/definitions/specs/Examples.antt, which the prover computes by `refl` as those are in proofs/Examples.antt; a
case that differs is an error that names both sides. Needs the Rattle kit. Cases with long texts or tapes are left out. An opening that tells of a pragma is computed by itself
too, over notice targets that have a byte too few, just enough and one more. Prints how many rows were computed, how many of them are accepted, and how often each
refusal comes up.
"""

import collections
import pathlib
import re
import shutil
import subprocess
import sys
import tempfile

import cases
import model

here = pathlib.Path(__file__).resolve().parent
top = here.parent.parent
below = ["text", "tape", "commands", "references", "definitions"]


def hexed(data):
    words = " ".join(f"{b:02x}" for b in data) if isinstance(data, bytes) else data.strip()
    return f'(hex "{words}")' if words else "[]"


def expected(lines):
    said = {"calls": "", "notices": "", "records": ""}
    for line in lines:
        refused = re.match(r"(?:opening|root 0) refused (\d+) (\d+)", line)
        if refused:
            return "refused_with " + " ".join(refused.groups())
        word = line.split(" ")[0]
        if word in said:
            # the opening's notices stand before the root's
            said[word] += line[len(word):]
    return "printed " + " ".join(map(hexed, said.values()))


def openings(job, text):
    """The same opening over targets that its notices don't fit in, fill, and leave room in."""
    try:
        size = len(model.open_job(job, text)[1])
    except model.Refused:
        return
    for room in (size - 1, size, size + 1) if size else ():
        target = b"\xee" * room
        try:
            _, told = model.open_job(job, text, room)
            reply = f"noticed {len(told)} {hexed(told + target[len(told):])}"
        except model.Refused as refusal:
            reply = f"refused_over {refusal.args[0]} {refusal.args[1]} {hexed(target)}"
        yield f"(opens {hexed(job)} {hexed(text)} {hexed(target)} gives {reply})"


def rows(work, count, seed):
    file = work / "cases.bin"
    generate = ["generate.py", str(file), "--cases", str(count), "--seed", str(seed), "--roots", "1", "--no-grid"]
    subprocess.run([sys.executable, *generate], cwd=here, check=True)
    answers = subprocess.run([sys.executable, "model.py", str(file)], cwd=here, check=True, capture_output=True, text=True).stdout
    for (job, text, roots), answer in zip(cases.unpack(file.read_bytes()), answers.split("case ")[1:]):
        if len(text) <= 300 and len(job) <= 200 and len(roots) == 1 and len(roots[0]) <= 400:
            asked = f"prints {hexed(job)} {hexed(text)} {hexed(roots[0])}"
            yield f"({asked} gives output ({expected(answer.split(chr(10))[1:])}))"
            yield from openings(job, text)


def table(part):
    examples = (top / "crates/definitions/proofs/Examples.antt").read_text()
    head = examples[examples.index("\nuse ") + 1:examples.index("use Rattle.definitions.specs.Examples.")]
    head += "use Rattle.std.specs.Prelude.{List, [], ◌∷◌}\nuse Rattle.definitions.specs.Program.{printed, refused_with}\n"
    unfolded = examples[examples.index("unfolding", examples.index("\ncomputed :")):examples.index("computed = (refl, refl)")]
    names = "digit, hex_of, hex, prints, opens, output, noticed, refused_over, pairs_of, opening_reply, meaning_of, meaning, reply_to, Row, ◌gives◌, Answered"
    return (head + f"use Rattle.definitions.specs.Examples.{{{names}}}\n\nabbrev table : List Row\ntable =\n    " + "\n    ∷ ".join(part)
        + "\n    ∷ []\n\npub computed : Answered table\n" + unfolded + "computed = refl\n")


def main():
    count, seed = (sys.argv[1:] + ["400", "2026"][len(sys.argv) - 1:])[:2]
    with tempfile.TemporaryDirectory() as name:
        work = pathlib.Path(name)
        for name in below:
            shutil.copytree(top / "crates" / name, work / "crates" / name, ignore=shutil.ignore_patterns("must-fail", "out"))
        lines = [line for line in (top / "crates.txt").read_text().split("\n") if line.split(":")[0] in below]
        (work / "crates.txt").write_text("\n".join(lines + ["computed: " + " ".join(below)]) + "\n")
        specs = work / "crates/computed/specs"
        specs.mkdir(parents=True)
        (work / "crates/computed/src").mkdir()
        (work / "crates/computed/src/lib.rt").write_text("// Cases that the definitions are computed on.\n")
        all_rows = list(rows(work, count, seed))
        parts = [all_rows[i:i + 40] for i in range(0, len(all_rows), 40)]
        for i, part in enumerate(parts):
            (specs / f"Cases{i}.antt").write_text(table(part))
        (specs / "Lib.antt").write_text("".join(f"pub mod Cases{i}\n" for i in range(len(parts))))
        done = subprocess.run(["rt", "check"], cwd=work / "crates/computed", capture_output=True, text=True)
    if done.returncode:
        sys.exit(done.stdout + done.stderr)
    refused = collections.Counter(int(found[1]) for found in (re.search(r"refused_(?:with|over) (\d+)", row) for row in all_rows) if found)
    told = ", ".join(f"{number}: {times}" for number, times in sorted(refused.items()))
    alone = sum(row.startswith("(opens") for row in all_rows)
    print(f"{len(all_rows)} rows computed from the definitions, {alone} of them openings alone, 0 differ from the model; {len(all_rows) - refused.total()} accepted; refused by {told}")


main()

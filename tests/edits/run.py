#!/usr/bin/env python3
"""Edits that the check must refuse: python3 tests/edits/run.py [--anew] [--minutes N] [CRATE..]

Tries those of crates/CRATE/must-fail and tests/edits/CRATE on copies of the crate, each over what a check of the crate as it stands proved, so that only what an
edit changes is proved again. Edits of different functions of a crate are tried together: a check tells every failing function by itself. An edit that was not
shown as refused there, or that changes a definition, is tried alone.

An edit counts as refused only where a goal of what it concerns doesn't hold (verdicts.py). Every exported function has two edits of its own at the least. What was
refused is kept on this machine by the sums of all that it read, in ~/.cache, and not tried again; with --anew all are. With --minutes no run begins after so many
minutes, and how many edits were left for the next time is told. Prints each edit with its verdict; the exit status is 1 if one was not refused.
"""

import concurrent.futures
import hashlib
import os
import re
import sys
import tempfile
import time

sys.dont_write_bytecode = True
from edits import HERE, ROOT, libraries, of_crate, programs, uncovered  # noqa: E402
from functions import functions  # noqa: E402
import kit  # noqa: E402
import verdicts  # noqa: E402


class Group:
    """Edits that are tried together: at most one for each function. `texts` is what they make of the crate's files."""

    def __init__(self, edit, every):
        self.edits, self.touched, self.texts = [], set(), {}
        self.takes(edit, every)

    def takes(self, edit, every):
        made, touched = edit.applied(self.texts, every), edit.concerns(every)
        if made is None or touched & self.touched:
            return False
        self.edits.append(edit)
        self.touched |= touched
        self.texts.update(made)
        return True


def grouped(edits, every):
    """Groups of edits, and those that are tried alone: edits of definitions, contracts and types."""
    groups, alone = [], []
    for edit in edits:
        if not edit.concerns(every):
            alone.append(Group(edit, every))
        elif not any(group.takes(edit, every) for group in groups):
            groups.append(Group(edit, every))
    return groups, alone


# of laws that cite one another: one of them is refused, with a message of its own
BESIDE = re.compile(r"(?m)^\S+:\d+:\d+: error: `[^`]*` is not admitted: rejected\n(?:  .*\n)*")


def judged(said, edit, every):
    touched, said = edit.concerns(every), BESIDE.sub("", said)
    if "\nlogic=" not in said:
        return verdicts.Verdict("broken", "it did not reach the prover: " + said[:200])
    if not touched:
        return verdicts.of_definition(said)
    found = [verdicts.of_function(said, function) for function in touched]
    return next((each for each in found if each.kind != "open"), found[0])


class Kept:
    """What was refused on this machine, by the sum of all that the verdict rests on: the kit, the crate and those below it, the edit, and the rule itself."""

    def __init__(self, anew):
        self.place = os.path.join(os.environ.get("XDG_CACHE_HOME") or os.path.expanduser("~/.cache"), "jsx-edits")
        self.anew, self.line, self.sums = anew, kit.line(), {}
        self.rule = self.sum(os.path.join(HERE, name) for name in ("edits.py", "functions.py", "verdicts.py"))

    def sum(self, paths, *more):
        made = hashlib.sha256(repr(more).encode())
        for path in paths:
            with open(path, "rb") as file:
                made.update(repr((os.path.relpath(path, ROOT), file.read())).encode())
        return made.hexdigest()

    def file(self, edit):
        if edit.crate not in self.sums:
            crates = [*kit.below(edit.crate), edit.crate]
            self.sums[edit.crate] = self.sum((path for crate in crates for path in kit.files(crate)), [(crate, kit.CRATES[crate]) for crate in crates])
        return os.path.join(self.place, hashlib.sha256(repr((self.line, self.rule, self.sums[edit.crate], edit.label, edit.text)).encode()).hexdigest())

    def why(self, edit):
        try:
            with open(self.file(edit), encoding="utf-8") as file:
                return None if self.anew else file.read()
        except OSError:
            return None

    def keep(self, edit, why):
        try:
            os.makedirs(self.place, exist_ok=True)
            with tempfile.NamedTemporaryFile("w", dir=self.place, delete=False, encoding="utf-8") as file:
                file.write(why)
            os.replace(file.name, self.file(edit))
        except OSError:
            pass


class Trial:
    """The edits of a crate while they are tried."""

    def __init__(self, crate, kept, room, deadline):
        self.crate, self.kept, self.every, self.deadline = crate, kept, functions(ROOT, crate), deadline
        self.edits, self.lines, self.right, self.runs, self.seconds, self.late = of_crate(crate), [], 0, 0, 0, 0
        left = []
        for edit in self.edits:
            why = kept.why(edit)
            if why is not None:
                self.tell(edit, verdicts.Verdict("refused", why), "kept")
            elif edit.applied({}, self.every) is None:
                self.tell(edit, verdicts.Verdict("broken", "an old text is not there, or more than once"), "not tried")
            else:
                left.append(edit)
        self.together, self.alone = grouped(left, self.every)
        self.bench = kit.Bench(crate, room) if left else None
        self.waiting = len(self.together) + len(self.alone)

    def tell(self, edit, verdict, took):
        word = {"refused": "refused", "broken": "BROKEN", "open": "NOT REFUSED"}[verdict.kind]
        self.lines.append(f"edit {edit.label}: {word} ({took}): {verdict.why}")
        self.right += verdict.kind == "refused"

    def begin(self):
        start = time.time()
        self.bench.begin()
        self.seconds += time.time() - start

    def attempt(self, group):
        start = time.time()
        return group, self.bench.check(group.texts) if start < self.deadline else None, time.time() - start

    def judge(self, group, said, took):
        """Tells what came of a group, and returns those that are to be tried alone."""
        again = []
        if said is None:
            self.late, self.waiting = self.late + len(group.edits), self.waiting - 1
            return again
        for edit in group.edits:
            verdict = judged(said, edit, self.every)
            if verdict.kind != "refused" and len(group.edits) > 1:
                again.append(Group(edit, self.every))
                continue
            if verdict.kind == "refused":
                self.kept.keep(edit, verdict.why)
            self.tell(edit, verdict, f"{took / len(group.edits):.0f} s")
        self.runs, self.seconds, self.waiting = self.runs + 1, self.seconds + took, self.waiting - 1 + len(again)
        return again

    def end(self):
        if self.bench:
            self.bench.end()
        self.lines.append(f"edits of {self.crate}: {self.runs} runs ({self.seconds:.0f} s)")
        print("\n".join(self.lines), flush=True)


def size(crate):
    """Bytes of a crate's proofs, by which its checks take long."""
    return sum(os.path.getsize(path) for path in kit.files(crate) if f"{os.sep}proofs{os.sep}" in path)


def main():
    words, deadline, every = [word for word in sys.argv[1:] if word != "--anew"], float("inf"), libraries() + programs()
    if "--minutes" in words:
        at = words.index("--minutes")
        if not re.fullmatch(r"\d+(\.\d+)?", "".join(words[at + 1:at + 2])):
            raise SystemExit("edits: --minutes takes a number")
        deadline = time.time() + 60 * float(words[at + 1])
        del words[at:at + 2]
    unknown = [word for word in words if word not in every]
    if unknown:
        raise SystemExit(f"edits: no crate with edits, and no option: {' '.join(unknown)}\nusage: run.py [--anew] [--minutes N] [CRATE..]")
    crates, kept = words or every, Kept("--anew" in sys.argv)
    right = wanted = runs = late = 0
    for crate in crates:
        for path, count in uncovered(crate) if crate in libraries() else ():
            print(f"edits: {path} has {count} of its own, not two")
            wanted += 1
    with tempfile.TemporaryDirectory(prefix="jsx-edits-") as room, concurrent.futures.ThreadPoolExecutor(kit.sides()) as pool:
        # the dearest first
        trials, running = [Trial(crate, kept, room, deadline) for crate in sorted(crates, key=size, reverse=True)], {}
        list(pool.map(kit.build_below, [trial.crate for trial in trials if trial.bench and not kit.stands(trial.crate)]))
        for trial in trials:
            if trial.bench:
                running[pool.submit(trial.begin)] = trial
            else:
                trial.end()
        while running:
            for done in concurrent.futures.wait(running, return_when=concurrent.futures.FIRST_COMPLETED).done:
                trial, tried = running.pop(done), done.result()
                for group in trial.judge(*tried) if tried else [*trial.together, *trial.alone]:
                    running[pool.submit(trial.attempt, group)] = trial
                if not trial.waiting:
                    trial.end()
        for trial in trials:
            right, wanted, runs, late = right + trial.right, wanted + len(trial.edits), runs + trial.runs, late + trial.late
    print(f"edits: {right} of {wanted} refused, in {runs} runs" + (f"; left out: {late}, since the time was up" if late else ""))
    sys.exit(right + late != wanted)


if __name__ == "__main__":
    main()

#!/usr/bin/env python3
"""Seconds of each part of a run of the gate, from what it printed: python3 tests/times.py LOG [LOG]

LOG is the standard output of `bash tests/all`. Prints, as tables for docs/CHANGES.md: the edits that were tried by crate (those that an earlier run refused are
left out), the parts of the test command, and the sums. `rt ci` is one part: it tells no seconds of its own. With two logs each figure stands for both, before and after.
"""

import re
import sys

TRIED = re.compile(r"^edits of (\w+): (\d+) runs \((\d+) s\)")
ALONE = re.compile(r"^edit (\w+)/[\w-]+: refused \(\d+ s\)")
PART = re.compile(r"^part (.+): (?:ok|FAILED) \((\d+) s\)")


class Run:
    def __init__(self, path):
        self.tried, self.parts, self.counts = {}, {}, {}
        with open(path, encoding="utf-8", errors="replace") as file:
            for line in file:
                if found := ALONE.match(line):
                    self.counts[found[1]] = self.counts.get(found[1], 0) + 1
                elif found := TRIED.match(line):
                    if int(found[2]):
                        self.tried[found[1]] = (self.counts.get(found[1], 0), int(found[2]), int(found[3]))
                elif found := PART.match(line):
                    self.parts[found[1]] = int(found[2])


def table(head, runs, pick, shown):
    """A row for each name, a column for each run, and the sums."""
    names = list(dict.fromkeys(name for run in runs for name in pick(run)))
    if not names:
        return
    print(f"\n| {head} |" + " |" * len(runs) + "\n|---|" + "---|" * len(runs))
    for name in names:
        print(f"| {name} | " + " | ".join(shown(pick(run)[name]) if name in pick(run) else "" for run in runs) + " |")
    sums = []
    for run in runs:
        rows = [row if isinstance(row, tuple) else (row,) for row in pick(run).values()]
        total = tuple(map(sum, zip(*rows)))
        sums.append(shown(total if len(total) > 1 else total[0]) if total else "")
    print("| sum | " + " | ".join(sums) + " |")


def main():
    if len(sys.argv) not in (2, 3):
        raise SystemExit(__doc__.split("\n")[0])
    runs = [Run(path) for path in sys.argv[1:]]
    table("edits tried: how many, runs, seconds", runs, lambda run: run.tried, lambda row: ", ".join(map(str, row)))
    table("part, seconds", runs, lambda run: run.parts, str)


if __name__ == "__main__":
    main()

#!/usr/bin/env python3
"""Compares two lists of answers: python3 compare.py [--printed] CASES ORACLE OTHER

ORACLE's refusals have no number, and it has no notices of openings (C2), which the Rust doesn't know: what other programs tell there is held to the model, and for as many
pragmas as it tells of, the Rust must fall back to the default, which its settings show. An OTHER that can't show settings says `opening accepted`. With --printed, OTHER
has what `jsxtape` prints for cases of one root. Prints the first differences, then how much was compared; the exit status says whether all agree.
"""

import collections
import re
import sys

from cases import unpack
import model


def cases(name):
    answer = []
    with open(name) as file:
        for line in file:
            line = line.rstrip("\n")
            if line.startswith("case ") and answer:
                yield answer
                answer = []
            answer.append(line)
    if answer:
        yield answer


def opening_lines(job, text, settings):
    """The line of an opening's notices by the model, where there are any. `settings` is the oracle's line on the opening: it must fall back in as many pragmas."""
    try:
        told = model.open_job(job, text)[1]
    except model.Refused:
        told = b""
    fallen = len(re.findall(r" (?:pragma|frag) '\w* default\.0", settings))
    if len(told) != 5 * fallen and settings != "opening refused":
        return [f"unwritten: the model tells of {len(told) // 5} pragmas, and the Rust falls back in {fallen}"]
    return [model.line("notices", told)] if fallen else []


def oracle_answers(inputs, name):
    """The oracle's answers, with the notices of openings."""
    for (job, text, _), answer in zip(inputs, cases(name), strict=True):
        yield answer[:2] + opening_lines(job, text, answer[1]) + answer[2:]


def without_figures(line):
    words = line.split(" ")
    return " ".join(words[:words.index("refused") + 1]) if "refused" in words else line


def agrees(mine, other):
    other = without_figures(other)
    return mine == other or other == "opening accepted" and mine.startswith("opening ") and mine != "opening refused"


def as_printed(answer):
    """The three lines of `jsxtape`, or the one of a refusal, as of an empty root tape where there is none. The opening's notices stand before the root's."""
    said, roots = {"calls": "", "notices": "", "records": ""}, 0
    for line in answer[2:]:
        word = line.split(" ")[0]
        roots += word == "root"
        if word in said:
            said[word] += line[len(word):]
        elif word != "root":
            return [answer[0], line]
    if roots == 0 or any(line.endswith("refused") for line in answer):
        return [answer[0], "refused"]
    return [answer[0]] + [word + rest for word, rest in said.items()]


def main():
    count = collections.Counter()
    refusals = collections.Counter()
    inputs, oracle, other = (name for name in sys.argv[1:] if name != "--printed")
    with open(inputs, "rb") as file:
        first, second = oracle_answers(unpack(file.read()), oracle), cases(other)
    if "--printed" in sys.argv:
        first = map(as_printed, first)
    while True:
        ours, theirs = next(first, None), next(second, None)
        if ours is None and theirs is None:
            break
        count["cases"] += 1
        for line in theirs or ():
            if "refused " in line:
                refusals[line.split(" ")[-2]] += 1
            if line.startswith("opening"):
                count["openings refused" if " refused" in line else "openings accepted"] += 1
            if line.startswith("root"):
                count["roots refused" if " refused" in line else "roots accepted"] += 1
            if line.startswith("notices c2"):
                count["openings that tell"] += 1
            if "--printed" in sys.argv and line.split(" ")[0] in ("records", "refused"):
                count["accepted" if line.startswith("records") else "refused"] += 1
        if ours is None or theirs is None or len(ours) != len(theirs) or not all(map(agrees, ours, theirs)):
            count["cases that differ"] += 1
            if count["cases that differ"] <= 10:
                print("differs:", (ours or theirs)[0])
                for mine, other in zip(ours or [], theirs or []):
                    if not agrees(mine, other):
                        print("  oracle:", mine)
                        print("  other: ", other)
                if len(ours or []) != len(theirs or []):
                    print("  lines:", len(ours or []), len(theirs or []))
    differ = count.pop("cases that differ", 0)
    print(", ".join(f"{number} {what}" for what, number in count.items()) + f"; {differ} cases that differ")
    print("refusals by number:", ", ".join(f"{number}: {times}" for number, times in sorted(refusals.items(), key=lambda r: int(r[0]))))
    sys.exit(1 if differ else 0)


if __name__ == "__main__":
    main()

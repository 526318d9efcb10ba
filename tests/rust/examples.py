#!/usr/bin/env python3
"""The specification's "Sheets to try" as cases with what must come out: python3 examples.py FILE, then python3 examples.py --check ORACLE OTHER..

The first writes the cases, the second looks through what oracle (with --plain-fragments) and other programs printed for them. The Rust has no notices of openings (C2).
"""

import sys

from cases import pack

Z = "00" * 8
ROOT = "01 00 02 03 10" + Z  # in a function, an element at line 0, column 0
A = "20 0000 0100"  # the tag: the text's first byte
TAIL = "9e 8a 8b 00 00 01 00 8d 9f"


def nested(depth):
    return "01 00 02 03" + ("11" + Z) * depth + "1f" * depth


# name, job, text, root, and lines that the answer must have
EXAMPLES = [
    ("the whole example", "61 e1 00", b"a", ROOT + A + "1e 1f",
     [f"calls 80 01 81 82 {TAIL} 96 00 a0 01", "notices", "records b0 01 b1 02 00"]),
    ("text of 3 spaces: kept", "61 81 00", b"a   ", ROOT + A + "1e 50 0100 0300 1f",
     [f"calls 80 01 81 9a 8a 8b 01 00 03 00 8d 9b 00 82 {TAIL} 96 00 a0 01"]),
    ("LF: no child", "61 81 00", b"a\n", ROOT + A + "1e 50 0100 0100 1f", [f"calls 80 01 81 82 {TAIL} 96 00 a0 01"]),
    ('" a LF b "', "61 81 00", b"c a \n b ", ROOT + A + "1e 50 0100 0700 1f",
     [f"calls 80 01 81 9a 8a 8b 01 00 02 00 8c 8b 06 00 02 00 8d 9b 00 82 {TAIL} 96 00 a0 01"]),
    ("comment a@@jsx h", "61 01 00 60 0000 0800", b"a@@jsx h", None, [" pragma '68 - frag - - "]),
    ("comment @jsx, LF, @jsxFrag f", "61 01 00 60 0000 1000", b"@jsx \n@jsxFrag f", None, [" pragma - - frag - - "]),
    ("h.class", "61 09 00 62 0000 0700", b"h.class", None, [" identifier.1 "]),
    ("import", "61 09 00 62 0000 0600", b"import", None, [" pragma '696d706f7274 default.0 "]),
    ("a..b", "61 09 00 62 0000 0400", b"a..b", None, [" pragma '612e2e62 default.0 "]),
    ("this", "61 09 00 62 0000 0400", b"this", None, [" this.0 "]),
    ("sole spread child", "61 81 00", b"a", ROOT + A + "1e 51 0500 1f",
     [f"calls 80 01 81 9a 9c 05 00 9b 01 82 {TAIL} 96 00 a0 01", "notices", "records b0 01 b1 02 00"]),
    ("valueless key", "61 81 00", b"akey", ROOT + A + "30 0100 0300 40 1e 1f",
     [f"calls 80 01 81 83 01 00 03 00 90 82 {TAIL} 96 00 a0 01", "notices c0 01 00 03 00", "records b0 01 b1 02 00"]),
    ("classic, two spreads of {}", "61 09 00", b"a", ROOT + A + "33 0500 35 33 0600 35 1e 1f",
     [f"calls 80 00 88 {TAIL} 98 00 a0 01", "notices", "records"]),
    ("classic, lone spread of {}", "61 09 00", b"a", ROOT + A + "33 0500 35 1e 1f",
     [f"calls 80 00 89 05 00 {TAIL} 98 00 a0 01", "notices", "records"]),
    ("depth 64", "61 09 00", b"", nested(64), ["root 0 accepted"]),
    ("depth 65", "61 09 00", b"", nested(65), ["root 0 refused"]),
    ("line 4,294,967,294", "61 0c 00", b"a", "01 00 02 03 10 fe ff ff ff 00 00 00 00" + A + "1e 1f",
     [f"calls 80 00 81 a1 00 ff ff ff ff 01 00 00 00 82 {TAIL} 98 00 a0 01", "records b3 00 00"]),
    ("import before children", "61 81 00", b"a", ROOT + A + "1e 11" + Z + "1f 51 0500 1f",
     [f"calls 80 01 81 9a 80 01 81 82 9e 96 00 9f 96 01 a0 01 9c 05 00 9b 01 82 {TAIL} 96 02 a0 01",
      "records b0 01 b1 00 00 b1 02 01 b1 03 02"]),
    ("lone spread where self isn't allowed", "61 0b 00", b"a", "01 02 02 02 10" + Z + A + "32 0500 1e 1f",
     [f"calls 80 00 81 86 05 00 82 {TAIL} 98 00 a0 01", "notices", "records"]),
    ("a fragment with the source plugin", "61 04 00", b"", "01 00 02 03 11" + Z + "1f",
     ["calls 80 01 81 82 9e 96 00 99 00 9f 96 00 99 02 a0 01", "records b0 01 b2 00"]),
    ("a fragment with the self plugin", "61 02 00", b"", "01 00 02 03 11" + Z + "1f",
     ["calls 80 01 81 82 9e 96 00 99 00 9f 96 00 99 02 a0 01", "records b0 01 b2 00"]),
    ("a mistyped pragma", "61 08 00 62 0000 0400", b"h..xkey", ROOT + "22 30 0400 0300 40 1e 1f",
     ["notices c2 02 00 00 00", "calls 80 00 81 83 04 00 03 00 90 82 9e 93 9f 98 00 a0 00", "notices c0 04 00 03 00", "records"]),
]


def main():
    if sys.argv[1] != "--check":
        with open(sys.argv[1], "wb") as file:
            for _, job, text, root, _ in EXAMPLES:
                file.write(pack(bytes.fromhex(job), text, [bytes.fromhex(root)] if root else []))
        return
    wrong = 0
    for number, file in enumerate(sys.argv[2:]):
        with open(file) as answers:
            wrong += check([answer.split("\n")[1:] for answer in answers.read().split("case ")[1:]], number == 0)
    print(f"{len(EXAMPLES)} examples, {wrong} wrong lines")
    sys.exit(1 if wrong else 0)


def check(answers, is_rust):
    wrong = 0
    for (name, _, _, _, expected), answer in zip(EXAMPLES, answers, strict=True):
        for line in expected:
            if is_rust and line.startswith("notices c2"):
                continue
            if not (any(line in each for each in answer) if line[0] == " " else any(
                    each == line or line.endswith("refused") and each.startswith(line) for each in answer)):
                wrong += 1
                print(f"{name}: no line '{line}' in", *answer, sep="\n  ")
    return wrong


if __name__ == "__main__":
    main()

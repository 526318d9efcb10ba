#!/usr/bin/env python3
"""Runs the program `jsxtape` on each case of a file: python3 jsxtape.py PROGRAM CASES

The program takes one root, so the cases must have one at the most (generate.py --roots 1). Prints `case N` and what it prints.
"""

import os
import subprocess
import sys
import tempfile

from cases import unpack


def main():
    program = os.path.abspath(sys.argv[1])
    with open(sys.argv[2], "rb") as file:
        data = file.read()
    with tempfile.TemporaryDirectory() as folder:
        for number, (job, text, roots) in enumerate(unpack(data)):
            if len(roots) > 1:
                sys.exit(f"case {number} has {len(roots)} roots")
            for name, content in (("job.bin", job), ("text.bin", text), ("root.bin", roots[0] if roots else b"")):
                with open(os.path.join(folder, name), "wb") as file:
                    file.write(content)
            run = subprocess.run([program, "job.bin", "text.bin", "root.bin"], cwd=folder, stdout=subprocess.PIPE, text=True)
            sys.stdout.write(f"case {number}\n{run.stdout}")


if __name__ == "__main__":
    main()

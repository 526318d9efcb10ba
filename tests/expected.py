"""What the expected.py beside a test program shares: the files that it makes are written, or with --check compared with those there."""

import os
import sys

sys.dont_write_bytecode = True
sys.path[:0] = [os.path.join(os.path.dirname(os.path.abspath(__file__)), *folder) for folder in (("rust",), ("..", "tools"))]


def hold(script, files, what):
    """`files` are names and contents; `what` says in the plural what was made, for --check."""
    folder = os.path.dirname(os.path.abspath(script))
    for name, content in files.items():
        path = os.path.join(folder, name)
        if "--check" not in sys.argv:
            with open(path, "wb") as file:
                file.write(content)
        elif open(path, "rb").read() != content:
            raise SystemExit(f"{os.path.relpath(path)} is not what {os.path.relpath(script)} makes")
    if "--check" in sys.argv:
        print(f"{os.path.basename(folder)}: {what} made again")

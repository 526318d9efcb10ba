"""The kit's compiler on one crate with changed texts, over the libraries that rt built and over what a check of the crate proved."""

import os
import re
import shutil
import subprocess
import tempfile

from edits import ROOT

PARTS = ("src", "specs", "proofs")


def found():
    """The kit's folder."""
    rt = shutil.which("rt")
    if not rt:
        raise SystemExit("edits: rt is not at hand")
    return os.path.dirname(os.path.dirname(os.path.realpath(rt)))


def line():
    """What `rt version` says of the kit."""
    return subprocess.run(["rt", "version"], capture_output=True, text=True, check=True).stdout.strip()


def listed():
    """crates.txt: of each crate the words before the colon and those behind it."""
    crates = {}
    with open(os.path.join(ROOT, "crates.txt"), encoding="utf-8") as file:
        for row in file:
            name, colon, uses = row.split("#")[0].partition(":")
            if colon:
                crates[name.split()[0]] = name.split()[1:], uses.split()
    return crates


CRATES = listed()


def folder(crate, *more):
    return os.path.join(ROOT, "crates", crate, *more)


def below(crate):
    """The repository's libraries below a crate, each behind those that it uses."""
    every = []
    for use in CRATES[crate][1]:
        if use in CRATES:
            every += [each for each in [*below(use), use] if each not in every]
    return every


def files(crate):
    """The files that a check of the crate reads, but for the libraries below it."""
    for part in PARTS:
        for at, folders, names in os.walk(folder(crate, part)):
            folders.sort()
            yield from (os.path.join(at, name) for name in sorted(names))


def rlib(crate):
    return folder(crate, "out", "rlib", crate + ".rlib")


def stands(crate):
    """Whether the libraries below the crate are built, and later than any file that they were built from was written."""
    newest = 0
    for each in below(crate):
        newest = max(newest, *(os.stat(path).st_mtime for path in files(each)))
        if not os.path.exists(os.path.join(rlib(each), "format")) or os.stat(rlib(each)).st_mtime <= newest:
            return False
    return True


def words(crate, kit):
    """The compiler's words for a check of the crate."""
    kinds, uses = CRATES[crate]
    root = "src/main.rt" if os.path.exists(folder(crate, "src", "main.rt")) else "src/lib.rt"
    made = ["check", "--crate-name", crate, root, "--extern", f"std={kit}/rlibs/std.rlib"]
    for use in uses:
        made += ["--extern", f"{use}={rlib(use) if use in CRATES else f'{kit}/rlibs/{use}.rlib'}"]
    for place in [f"{kit}/rlibs", *(os.path.dirname(rlib(each)) for each in below(crate))]:
        made += ["-L", f"dependency={place}"]
    made += ["--antt-project", f"{kit}/rattle/logic/antt-project.json", "--logic-built", f"{kit}/logic_built"]
    return made + ["--jobs", "1", "--links", f"{crate}=", *(["--crate-type", "staticlib"] if "staticlib" in kinds else [])]


def linked(one, other):
    """Copies what a check keeps. A check makes such files anew and writes into none, so that a second name will do."""
    try:
        return os.link(one, other)
    except OSError:
        return shutil.copy2(one, other)


def stop_unless_proved(crate, done):
    if done.returncode:
        raise SystemExit(f"edits: {crate} is not proved as it stands:\n{done.stdout[-2000:]}")


def build_below(crate):
    """Has rt check the crate, for which it builds the libraries below. No other check may read these meanwhile."""
    done = subprocess.run(["rt", "check", "--jobs", "1"], cwd=folder(crate), stdout=subprocess.PIPE, stderr=subprocess.STDOUT, text=True, errors="replace")
    stop_unless_proved(crate, done)


class Bench:
    """A place where a crate is checked with changed texts: begun with what its own checks kept."""

    def __init__(self, crate, room):
        self.crate, self.kit, self.room = crate, found(), tempfile.mkdtemp(prefix=crate + "-", dir=room)
        self.seed = os.path.join(self.room, "seed")

    def begin(self):
        """Checks the crate as it stands; what is proved stays for the checks that follow."""
        kept = folder(self.crate, "out", "incremental")
        if os.path.isdir(kept):
            shutil.copytree(kept, self.seed, copy_function=linked)
        else:
            os.mkdir(self.seed)
        stop_unless_proved(self.crate, self.run({}, self.seed))

    def check(self, texts):
        """What the check says of the crate with these texts."""
        with tempfile.TemporaryDirectory(dir=self.room) as room:
            seed = shutil.copytree(self.seed, os.path.join(room, "seed"), copy_function=linked)
            done = self.run(texts, seed)
            if done.returncode < 0:  # killed, most likely for memory
                done = self.run(texts, seed)
        return done.stdout

    def run(self, texts, seed):
        with tempfile.TemporaryDirectory(dir=self.room) as room:
            for part in PARTS:
                if os.path.isdir(folder(self.crate, part)):
                    shutil.copytree(folder(self.crate, part), os.path.join(room, part))
            for name, text in texts.items():
                with open(os.path.join(room, name), "w", encoding="utf-8") as file:
                    file.write(text)
            made = [f"{self.kit}/bin/rattle", *words(self.crate, self.kit), "--incremental", seed]
            return subprocess.run(made, cwd=room, stdout=subprocess.PIPE, stderr=subprocess.STDOUT, text=True, errors="replace")

    def end(self):
        shutil.rmtree(self.room, ignore_errors=True)


def sides():
    """How many checks run side by side: one for each processor, as far as there are 3 GB of memory for each."""
    with open("/proc/meminfo", encoding="utf-8") as file:
        free = int(re.search(r"MemAvailable: +(\d+)", file.read())[1]) * 1024
    return max(1, min(len(os.sched_getaffinity(0)), free // 3_000_000_000))

#!/usr/bin/env python3
"""Tries ./reopt in a small house made by hand, with an rt that only says what the kit's says: help, a first build, a build again, and builds that fail."""

import os
import shutil
import subprocess
import sys
import tempfile
import time

TOP = os.path.dirname(os.path.dirname(os.path.realpath(__file__)))

# What the kit's rt says of a build, and the program that it leaves. A file named after a fault makes it fail so.
RT = """#!/usr/bin/env bash
case $1 in
all)
    if [ -e "$HOUSE/front" ]; then echo 'rt: mend these first: no library was built, and no proof was checked'; exit 1; fi
    for name in low reopt; do echo "== $name"; echo 'logic=proved functions=1'; done
    echo '== summary'
    if [ -e "$HOUSE/bad" ]; then echo 'low: failed (1)'; exit 1; fi
    ;;
run)
    if [ -e "$HOUSE/same" ]; then echo 'rt: nothing has changed since the last proved build, by out/reopt.stamp, so nothing is checked now'; exit 3; fi
    sleep 0.05
    printf '#!/bin/sh\\\\necho "ran $*"\\\\necho "reopt: module: syntax at 0" >&2\\\\nexit 2\\\\n' >out/reopt
    chmod +x out/reopt
    touch out/reopt.stamp
    exit 3
    ;;
try) shift 2; echo "tried $*" ;;
esac
"""


class House:
    """A folder with ./reopt, two crates and an rt of its own."""

    def __init__(self, folder):
        self.folder = folder
        for crate in ("low", "reopt"):
            os.makedirs(f"{folder}/crates/{crate}/src")
            self.write(f"crates/{crate}/src/lib.rt", "")
        self.write("crates.txt", "# Base\nlow:\nreopt: low\nother: low\n")
        self.write("HANDLES", "Handles allowed: none.\n")
        self.write("docs/PROVING.md", "| low | 60 | 1 |\n| reopt | 60 | 1 |\n")
        self.write("bin/rt", RT.replace("\\\\", "\\"))
        os.chmod(f"{folder}/bin/rt", 0o755)
        shutil.copy2(f"{TOP}/reopt", folder)
        self.wrong = []

    def write(self, path, text):
        os.makedirs(os.path.dirname(f"{self.folder}/{path}") or self.folder, exist_ok=True)
        with open(f"{self.folder}/{path}", "w", encoding="utf-8") as file:
            file.write(text)

    def age(self):
        """Makes all that was written so far older than what is written next."""
        then = time.time() - 10
        for at, _, names in os.walk(self.folder):
            for name in names:
                os.utime(f"{at}/{name}", (os.stat(f"{at}/{name}").st_mtime - 10,) * 2 if name.endswith((".stamp", ".built")) or name == "reopt" else (then - 10, then - 10))

    def says(self, words, status, has=(), lacks=(), unproved=False):
        how = {**os.environ, "PATH": f"{self.folder}/bin:{os.environ['PATH']}", "HOUSE": self.folder, "REOPT_UNPROVED": "1" if unproved else ""}
        ran = subprocess.run([f"{self.folder}/reopt", *words], cwd=self.folder, env=how, stdin=subprocess.DEVNULL, stdout=subprocess.PIPE, stderr=subprocess.STDOUT, text=True)
        if ran.returncode != status:
            self.wrong.append(f"{words}: status {ran.returncode}, and not {status}: {ran.stdout}")
        self.wrong += [f"{words}: no '{it}' in: {ran.stdout}" for it in has if it not in ran.stdout]
        self.wrong += [f"{words}: '{it}' in: {ran.stdout}" for it in lacks if it in ran.stdout]


def main():
    with tempfile.TemporaryDirectory(prefix="reopt-script-") as folder:
        house = House(folder)
        for word in ("help", "-h", "--help"):
            house.says([word], 0, ["run MODULE CALLS", "--harts N", "status 0", "./reopt eval"], ["proved"])
        house.says([], 3, ["reopt: usage\n", "run MODULE CALLS"], ["proved"])
        house.says(["walk"], 3, ["reopt: usage\n"], ["proved"])
        house.says(["run", "a.ll", "a.calls"], 0, ["tried run a.ll a.calls", "unproved"], unproved=True)
        built = ["reopt: 2 crates are proved", "about 1 min", "reopt: low, 1 of 2", "reopt: reopt, 2 of 2; the program is built"]
        house.says(["run", "a", "b"], 2, [*built, "ran run a b\n", "reopt: module: syntax at 0\n"], ["newer"])
        house.says(["run", "a", "b"], 2, ["ran run a b\n"], ["proved", "newer"])
        os.chmod(f"{folder}/crates/reopt/out/reopt", 0o644)
        house.says(["run", "a", "b"], 2, ["ran run a b\n"], ["proved"])
        house.age()
        house.write("crates/low/src/lib.rt", "\n")
        house.says(["run", "a", "b"], 2, ["sources are newer than the program", *built, "ran run a b\n"])
        house.says(["run", "a", "b"], 2, ["ran run a b\n"], ["proved"])
        for fault in ("front", "bad"):
            house.age()
            house.write("crates/low/src/lib.rt", "\n")
            house.write(fault, "")
            house.says(["run", "a", "b"], 1, ["sources are newer", "it was not built"], ["ran run"])
            os.remove(f"{folder}/{fault}")
        house.write("same", "")
        house.says(["run", "a", "b"], 2, ["sources are newer", "ran run a b\n"])
        house.says(["run", "a", "b"], 2, ["ran run a b\n"], ["newer"])
        wrong = house.wrong
    print("\n".join(f"test_reopt: {it.rstrip()}" for it in wrong) or "test_reopt: help, builds and runs as they should be")
    return 1 if wrong else 0


if __name__ == "__main__":
    sys.exit(main())

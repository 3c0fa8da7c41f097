#!/usr/bin/env python3
"""Runs what examples/*.session and the README show, and compares.

A session is lines as a terminal shows them: behind `$ ./reopt WORDS` stands what the program writes, error output behind output, and `[status N]` where
the status isn't 0; behind `$ cat FILE` the file, and behind `$ ./where WORDS` what that shows. Other commands aren't run: `$ clang ..` says how a file was made.
The program is the one that the gate has built, crates/reopt/out/reopt. `checks/examples.py --write` writes the sessions anew, to be read before they are kept.
"""

import glob
import os
import re
import shlex
import shutil
import subprocess
import sys
import tempfile

TOP = os.path.dirname(os.path.dirname(os.path.realpath(__file__)))
PROGRAM = f"{TOP}/crates/reopt/out/reopt"
RUN = {"./where": [sys.executable, f"{TOP}/where"]}


def shown(command):
    """Returns what a command shows, or none of one that isn't run."""
    words = shlex.split(command)
    if words[0] == "cat":
        with open(f"{TOP}/{words[1]}", encoding="utf-8") as file:
            return file.read()
    if words[0] not in RUN:
        return None
    ran = subprocess.run([*RUN[words[0]], *words[1:]], cwd=TOP, stdin=subprocess.DEVNULL, stdout=subprocess.PIPE, stderr=subprocess.PIPE, timeout=120)
    text = (ran.stdout + ran.stderr).decode(errors="replace")
    return text + (f"[status {ran.returncode}]\n" if ran.returncode else "")


def steps(text):
    """Returns the commands of a session, each with what stands behind it."""
    found = []
    for line in text.splitlines(keepends=True):
        if line.startswith("$ "):
            found.append([line[2:].rstrip("\n"), ""])
        elif found:
            found[-1][1] += line
    return found


def compared(name, text, wrong):
    for command, wanted in steps(text):
        try:
            is_shown = shown(command)
        except (OSError, subprocess.TimeoutExpired) as error:
            wrong.append(f"{name}: {command}: {error}")
            continue
        if is_shown is not None and is_shown != wanted:
            wrong.append(f"{name}: {command}\n  shows\n{is_shown}  and not\n{wanted}")


def write(path):
    """Writes a session anew, with its commands as they are."""
    with open(path, encoding="utf-8") as file:
        text = file.read()
    lines = []
    for command, wanted in steps(text):
        is_shown = shown(command)
        lines.append(f"$ {command}\n{wanted if is_shown is None else is_shown}")
    with open(path, "w", encoding="utf-8") as file:
        file.write("".join(lines))


def main(words):
    sessions = sorted(glob.glob(f"{TOP}/examples/*.session"))
    if not os.path.isfile(PROGRAM):
        print("examples: crates/reopt/out/reopt isn't there: rt ci, or ./reopt with a command, builds it")
        return 1
    with tempfile.TemporaryDirectory(prefix="reopt-examples-") as room:
        # (what the gate takes from an earlier run isn't marked as a program)
        shutil.copyfile(PROGRAM, f"{room}/reopt")
        os.chmod(f"{room}/reopt", 0o755)
        RUN["./reopt"] = [f"{room}/reopt"]
        if words == ["--write"]:
            for path in sessions:
                write(path)
            return 0
        return compare(sessions)


def compare(sessions):
    """Compares the sessions and the README's blocks with what the program shows, and sees that each module stands in one."""
    wrong = []
    for path in sessions:
        with open(path, encoding="utf-8") as file:
            compared(os.path.relpath(path, TOP), file.read(), wrong)
    with open(f"{TOP}/README.md", encoding="utf-8") as file:
        blocks = re.findall(r"^```\n(.*?)^```$", file.read(), re.M | re.S)
    for block in blocks:
        compared("README.md", block, wrong)
    for path in sorted(glob.glob(f"{TOP}/examples/*.ll")):
        if not any(os.path.basename(path) in open(it, encoding="utf-8").read() for it in [*sessions, f"{TOP}/README.md"]):
            wrong.append(f"{os.path.relpath(path, TOP)} stands in no session")
    print("\n".join(f"examples: {it}" for it in wrong) or f"examples: {len(sessions)} sessions and the README's {len(blocks)} blocks as they are shown")
    return 1 if wrong else 0


if __name__ == "__main__":
    sys.exit(main(sys.argv[1:]))

"""Writes what the program of crates/corpus is run on for the corpus and must print, before the rows that stand there, and behind these a line
for each module whose functions are translated to generic machine code.

store.py FOLDER CRATE: FOLDER has what build.sh made.
"""
import glob
import os
import re
import shutil
import sys

# The first command behind those of the corpus.
ROWS = "eval eval_rows.ll eval_rows.calls\n"


# The first of the lines behind all others.
TRANSLATE = "translate "


def translated(commands, said, data):
    """Returns a command for each module that a command answers calls of, and what it prints: all functions that the text defines."""
    asked, told = [], []
    for file in dict.fromkeys(line.split()[1] for line in commands.splitlines() if re.match(r"(eval|run) \S+\.ll", line)):
        answer = re.search(rf"(?m)^\$ reopt (?:eval|run) {re.escape(file)}\b.*\n(.*)$", said)
        many = len(re.findall(rb"(?m)^define\b", open(f"{data}/{file}", "rb").read())) if os.path.exists(f"{data}/{file}") else 0
        if many and answer and not answer[1].startswith("reopt:"):
            asked.append(f"{TRANSLATE}{file}\n")
            told.append(f"$ {TRANSLATE}{file}\n{many} of {many} functions\n")
    return "".join(asked), "".join(told)


def before(text, mark):
    """Returns a text up to where a line begins like this."""
    return text[: text.index("\n" + mark) + 1] if "\n" + mark in text else text


def main(folder, crate):
    data = f"{crate}/data"
    stood = before(open(f"{crate}/stdin").read(), TRANSLATE)
    ours, rows = stood[: stood.index(ROWS)], stood[stood.index(ROWS) :]
    said = before(open(f"{crate}/stdout").read(), "$ " + TRANSLATE)
    said = said[said.index("$ reopt " + ROWS) :]
    for command in ours.splitlines():
        for file in command.split()[1:]:
            if os.path.exists(f"{data}/{file}"):
                os.remove(f"{data}/{file}")
    commands, told = [], []
    for path in sorted(glob.glob(f"{folder}/*.ll")):
        file = os.path.basename(path)
        name = file.split(".")[0]
        shutil.copy(path, f"{data}/{file}")
        shutil.copy(f"{folder}/{name}.calls", f"{data}/{name}.calls")
        answers = open(f"{folder}/{name}.answers").read()
        for command in ["eval", "run"]:
            commands.append(f"{command} {file} {name}.calls\n")
            told.append(f"$ reopt {commands[-1]}{answers}status 0\n")
    asked, translations = translated("".join(commands) + rows, "".join(told) + said, data)
    open(f"{crate}/stdin", "w").write("".join(commands) + rows + asked)
    open(f"{crate}/stdout", "w").write("".join(told) + said + translations)


if len(sys.argv) != 3 or not glob.glob(f"{sys.argv[1]}/*.ll") or not os.path.isfile(f"{sys.argv[2]}/stdin"):
    print("store.py FOLDER CRATE: what build.sh made, and the crate of the corpus", file=sys.stderr)
    sys.exit(3)
main(*sys.argv[1:])

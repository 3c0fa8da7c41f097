#!/usr/bin/env python3
"""Tries checks/rules.py on small houses made by hand: a good one, and one for each way to break a rule."""

import os
import subprocess
import sys
import tempfile

HERE = os.path.dirname(os.path.realpath(__file__))

GOOD = {
    "crates.txt": "# Base\nlow:\n\n# Tests\nlow_tests: low\n",
    "README.md": "| Crate | What |\n|---|---|\n| `low` | Numbers. |\n| `low_tests` | Nothing. |\n\nSee `docs/DEFINITIONS.md`.\n",
    "docs/DEFINITIONS.md": "| Name | File | Rule |\n|---|---|---|\n| `half` | low/specs/Halves | the half of a number |\n",
    "docs/ARCHITECTURE.md": "    number --halve--> number      low\n\n| a half | `low/specs/Halves.antt`, `src/lib.rt` |\n",
    "checks/allowed.txt": "debug crates/low/src/lib.rt: an error\n",
    "crates/low/README.md": "# low\n\nHalves (`specs/Halves`).\n\nIt stands on `low_tests`.\n",
    "crates/low/src/lib.rt": "#[derive(Copy, Debug)]\npub struct Odd;\npub fn half(n: u8) -> u8 {\n    n / 2\n}\n",
    "crates/low/specs/Halves.antt": "half : \u2115 \u2192 \u2115\n",
    "crates/low/must-fail/third.edit": "file: src/lib.rt\nold: n / 2\nnew: n / 3\n",
    "crates/low_tests/README.md": "# low_tests\n",
    "crates/low_tests/src/lib.rt": "#[test]\nfn halves() {}\n",
    "edits/low/whole.edit": "file: src/lib.rt\nold:     n / 2\nnew:     n\n",
}

MANY = "".join(f"fn f{it}() {{}}\n" for it in range(31))

# What is changed in the good house, and a part of the line that is to come.
BROKEN = [
    ({f"crates/low/must-fail/{it}.edit": GOOD["crates/low/must-fail/third.edit"] for it in "abcd"}, "has 5 edits"),
    ({"edits/low/whole.edit": "file: specs/Halves.antt\nold: half\nnew: third\n"}, "is no file of src/"),
    ({"edits/low/whole.edit": "file: src/lib.rt\nold: n / 4\nnew: n\n"}, "stands 0 times"),
    ({"edits/high/whole.edit": "file: src/lib.rt\nold: n\nnew: m\n"}, "high is no crate"),
    ({"crates.txt": "low:\nlow_tests: low\n"}, "has no headings"),
    ({"crates.txt": GOOD["crates.txt"] + "low:\n"}, "lists low twice"),
    ({"crates.txt": GOOD["crates.txt"] + "high:\n"}, "there is no crates/high"),
    ({"crates.txt": "# Base\nlow:\n"}, "crates/low_tests isn't listed"),
    ({"crates/low/README.md": None}, "crates/low has no README.md"),
    ({"crates/low/src/long.rt": "\n" * 800}, "has 800 lines"),
    ({"crates/low/src/other.rt": "#[derive(Debug)]\nstruct S;\n"}, "other.rt derives Debug"),
    ({"checks/allowed.txt": "debug crates/low/src/lib.rt: an error\ndebug crates/low/src/no.rt: none\n"}, "which doesn't derive it"),
    ({"checks/allowed.txt": GOOD["checks/allowed.txt"] + "debug\n"}, "no line of the form"),
    ({"crates/low/src/tests.rt": "#[test]\nfn a() {}\n", "crates/low/src/more.rt": MANY}, "has tests beside 32 functions"),
    ({"crates/low/src/more.rt": MANY * 4}, "has 125 functions, and not below 100"),
    ({"checks/allowed.txt": GOOD["checks/allowed.txt"] + "functions low: many\n"}, "which has 1"),
    ({"checks/allowed.txt": GOOD["checks/allowed.txt"] + "tests low: a table\n"}, "the rule asks for no leave"),
    ({"crates/low/README.md": "# low\n\n`specs/Thirds`\n"}, "there is no specs/Thirds"),
    ({"crates/low/README.md": "# low\n\nIt stands on `low`.\n"}, "stands on itself"),
    ({"crates/low/README.md": "# low\n\n`one_third(n)`\n"}, "one_third is no name of the code"),
    ({"README.md": GOOD["README.md"] + "\n| `high` | Nothing. |\n"}, "README.md has a row for high"),
    ({"README.md": GOOD["README.md"] + "\n| `low` | Again. |\n"}, "README.md has 2 rows for low"),
    ({"docs/ARCHITECTURE.md": "    number --halve--> number      high\n"}, "high is no crate of crates.txt"),
    ({"docs/DEFINITIONS.md": GOOD["docs/DEFINITIONS.md"].replace("`half`", "`third`")}, "third isn't in low/specs/Halves"),
    ({"docs/DEFINITIONS.md": GOOD["docs/DEFINITIONS.md"].replace("Halves", "Thirds")}, "there is no low/specs/Thirds"),
    ({"crates/jit_text/specs/RefusalTexts.antt": 'a = codes " is odd\\n"\n', "docs/MESSAGES.md": "is even\n"}, "says nothing of ' is odd"),
    ({"bench/a.ll": "; /" + "home/somebody/a.c\n"}, "a place of the machine"),
]


def said(files, link=False):
    """Returns what the rules say of a house of these files, and their status."""
    with tempfile.TemporaryDirectory(prefix="reopt-rules-") as top:
        for path, text in files.items():
            if text is not None:
                os.makedirs(os.path.dirname(f"{top}/{path}") or top, exist_ok=True)
                with open(f"{top}/{path}", "w", encoding="utf-8") as file:
                    file.write(text)
        if link:
            os.symlink("lib.rt", f"{top}/crates/low/src/link.rt")
        ran = subprocess.run([sys.executable, f"{HERE}/rules.py", top], stdout=subprocess.PIPE, stderr=subprocess.STDOUT, text=True)
    return ran.stdout, ran.returncode


def main():
    wrong = []
    text, status = said(GOOD)
    if status:
        wrong.append(f"the good house is refused: {text}")
    for change, part in BROKEN:
        text, status = said({**GOOD, **change})
        if status != 1 or part not in text:
            wrong.append(f"not refused by '{part}', status {status}: {text}")
    text, status = said(GOOD, link=True)
    if status != 1 or "is a link" not in text:
        wrong.append(f"a link isn't refused: {text}")
    print("\n".join(f"test_rules: {it.rstrip()}" for it in wrong) or f"test_rules: {len(BROKEN) + 2} houses as they should be")
    return 1 if wrong else 0


if __name__ == "__main__":
    sys.exit(main())

#!/usr/bin/env python3
"""Tries where on refusals whose places were found by hand, and on each refusal in the program's table of bad input."""

import contextlib
import importlib.machinery
import importlib.util
import io
import os
import re
import sys
import tempfile

TOP = os.path.dirname(os.path.dirname(os.path.realpath(__file__)))

# A module in which blocks, values and instructions are numbered as the program numbers them: parameters first; calls that are dropped, debug records and
# comments don't count; a call without a name has a result where its type isn't void.
COUNTED = '''; ModuleID = 'counted.c'
@cell = global i64 0
declare void @llvm.assume(i1)
define i64 @"odd name"(i64 noundef %0, ptr %p, i32) #0 {
  %4 = alloca i64, align 8 ; %5 = no instruction
  call void @llvm.lifetime.start.p0(i64 8, ptr %4)
    #dbg_value(i64 %0, !7, !DIExpression(), !8)
  store i64 %0, ptr %4
  call i32 @step(i32 1)
  %6 = tail call i32 @step(i32 2)
  call void @none()
  switch i64 %0, label %out [
    i64 1, label %one
    i64 2, label %"two words"
  ]
one:
  %7 = zext i32 %6 to i64
  br label %out
"two words":
  br label %out
out:
  %8 = phi i64 [ %7, %one ], [ 0, %3 ], [ 1, %"two words" ]
  ret i64 %8
}
define void @none() { ret void }
define i32 @step(i32 %a) { ret i32 %a }
'''

COUNTED_CASES = [
    ("reopt: verify: @\"odd name\": value 0 not assigned on 0", ["4:36: value 0", "%0,", "8:13: %0 is used here"]),
    ("reopt: verify: @\"odd name\": value 2 not assigned on 0", ["4:48: value 2", "without a name"]),
    ("reopt: verify: @\"odd name\": value 3 not assigned on 0", ["5:3: value 3", "%4"]),
    ("reopt: verify: @\"odd name\": value 4 not assigned on 0", ["9:3: value 4", "without a name"]),
    ("reopt: verify: @\"odd name\": value 5 not assigned on 0 1", ["10:3: value 5", "%6", "17:17: %6 is used here"]),
    ("reopt: verify: @\"odd name\": value 6 not assigned on 0 3", ["17:3: value 6", "the entry of @\"odd name\" %out"]),
    ("reopt: verify: @\"odd name\": value 6 not assigned on 0 1", ["17:3: value 6", "22:18: %7 is used here"]),
    ("reopt: verify: @\"odd name\": instruction 1 has wrong types", ["8:3: instruction 1"]),
    ("reopt: verify: @\"odd name\": instruction 2 calls @step wrongly", ["9:3: instruction 2", "26:12: @step is defined here"]),
    ("reopt: verify: @\"odd name\": instruction 5 is out of range", ["12:3: instruction 5"]),
    ("reopt: verify: @\"odd name\": instruction 6 has wrong types", ["17:3: instruction 6"]),
    ("reopt: verify: @\"odd name\": block 0 is misshapen", ["5:3: block 0"]),
    ("reopt: verify: @\"odd name\": block 2 is misshapen", ["19:1: block 2", '%"two words"']),
    ("reopt: verify: @\"odd name\": block 3 has wrong phis", ["21:1: block 3", "blocks that jump to it: the entry of @\"odd name\", %one, %\"two words\""]),
    ("reopt: module: syntax at 0", ["1:1:"]),
    ("reopt: module: name at 25: @cell", ["2:1: the name @cell", "@cell = global i64 0", "\n^"]),
    ("reopt: module: syntax at 99999", ["27:1: the end of the text"]),
]

UNITS = "define void @many() {\n" + "  call void @none(i8 1, i8 2)\n" * 5462 + "  ret void\n}\ndefine void @none(i8 %a, i8 %b) {\n  ret void\n}\n"

# Modules that pass a limit, or end too early, with the message and the place.
SHORT = {
    "units.ll": (UNITS, "reopt: module: limit units 16387", "units.ll:1:13: @many has 16387 units"),
    "functions.ll": ("".join(f"define void @f{it}() {{ ret void }}\n" for it in range(1025)), "reopt: module: limit functions 1025", "functions.ll:1025:13:"),
    "globals.ll": ("".join(f"@g{it} = global i8 0\n" for it in range(4097)), "reopt: module: limit globals 4097", "globals.ll:4097:1:"),
    "nine.ll": ("define void @a() { ret void }\ndefine void @nine(i8, i8 %b, i8, i8, i8, i8, i8, i8, ptr %p) { ret void }\n", "reopt: verify: limit parameters 9", "nine.ll:2:13: @nine has 9"),
    "cut.ll": ("define i64 @f(i64 %a) {\n  %x = add i64 %a,", "reopt: module: syntax at 42", "cut.ll:2:19: the end of the text"),
    "returns.ll": ("define i64 @f() {\r\n  ret i64 %x\r\n}\r\n", "reopt: module: name at 29: %x", "returns.ll:2:11: the name %x"),
}

# The refusals of crates/corpus, by command and place.
CORPUS = '''eval add.ll return_at_the_end.calls: return_at_the_end.calls:1:1
eval add.calls add.ll: add.calls:1:5
eval add.ll add.ll: add.ll:1:1
run empty add.calls: add.calls:1:1
run bytes.ll f.calls: bytes.ll:1:1
run cut.ll f.calls: cut.ll:2:19
run wide_number.ll f.calls: wide_number.ll:2:11
run other_result.ll f.calls: other_result.ll:2:7
run float.ll f.calls: float.ll:1:8
run undef.ll f.calls: undef.ll:2:11
run wide_type.ll f.calls: wide_type.ll:1:8
run trap.ll f.calls: trap.ll:2:13
run wide_alignment.ll f.calls: wide_alignment.ll:2:20
run no_value.ll f.calls: no_value.ll:2:11
run no_global.ll f.calls: no_global.ll:2:22
run named_twice.ll f.calls: named_twice.ll:4:13
run holds_itself.ll f.calls: holds_itself.ll:1:18
run no_block.ll f.calls: no_block.ll:2:12
run parameters.ll f.calls: parameters.ll:1:13
run size.ll f.calls: size.ll:1:13
run nodes.ll f.calls: nodes.ll:1:13
run case_twice.ll f.calls: case_twice.ll:2:3
run phi_behind.ll f.calls: phi_behind.ll:3:1
run to_the_entry.ll f.calls: to_the_entry.ll:4:1
run wrong_types.ll f.calls: wrong_types.ll:3:3
run wrong_call.ll f.calls: wrong_call.ll:2:3
run wrong_phi.ll f.calls: wrong_phi.ll:6:1
run not_assigned.ll f.calls: not_assigned.ll:5:3
run types.ll no_at.calls: no_at.calls:3:1
run types.ll space_at_the_end.calls: space_at_the_end.calls:2:1
run types.ll no_space.calls: no_space.calls:1:1
run types.ll zero_turns.calls: zero_turns.calls:1:1
run types.ll too_many_turns.calls: too_many_turns.calls:2:1
run types.ll zero_byte.calls: zero_byte.calls:2:1
run types.ll no_function.calls: no_function.calls:2:1
run types.ll fewer.calls: fewer.calls:2:1
run types.ll more.calls: more.calls:2:1
run types.ll other_type.calls: other_type.calls:1:1
run types.ll out_of_range.calls: out_of_range.calls:2:1
run types.ll below_range.calls: below_range.calls:2:1
run types.ll no_cell.calls: no_cell.calls:1:1
'''


def loaded():
    """Returns the script as a module."""
    sys.dont_write_bytecode = True
    loader = importlib.machinery.SourceFileLoader("where", f"{TOP}/where")
    module = importlib.util.module_from_spec(importlib.util.spec_from_loader("where", loader))
    loader.exec_module(module)
    return module


WHERE = loaded()


def where(words, folder, text=""):
    """Returns what the script prints of these words, in this folder and with this standard input, and its status."""
    shown, before, given = io.StringIO(), os.getcwd(), sys.stdin
    try:
        os.chdir(folder)
        sys.stdin = io.StringIO(text)
        with contextlib.redirect_stdout(shown), contextlib.redirect_stderr(shown):
            status = WHERE.main(words)
    finally:
        os.chdir(before)
        sys.stdin = given
    return shown.getvalue(), status


def by_hand(folder, wrong):
    """Compares what is shown of modules made by hand."""
    for name, text in {"counted.ll": COUNTED, **{it: parts[0] for it, parts in SHORT.items()}}.items():
        with open(f"{folder}/{name}", "w", encoding="utf-8", newline="") as file:
            file.write(text)
    for message, wanted in COUNTED_CASES:
        shown, status = where(["counted.ll", message], folder)
        wrong += [f"{message}: no '{it}' in: {shown}" for it in wanted if it not in shown] + [f"{message}: status {status}"] * (status != 0)
    for name, (_, message, wanted) in SHORT.items():
        shown, status = where([name], folder, f"some other line\n{message}\n")
        if wanted not in shown or status:
            wrong.append(f"{name}: {message}: {shown}")
    for words, text, wanted in ((["counted.ll", "reopt: usage"], "", 1), ([], "", 2), (["no.ll", "reopt: module: syntax at 3"], "", 2), (["counted.ll"], "", 2)):
        shown, status = where(words, folder, text)
        if status != wanted:
            wrong.append(f"{words}: status {status}, and not {wanted}")


def by_table(wrong):
    """Compares the places of the refusals that crates/corpus lists."""
    folder, command, places = f"{TOP}/crates/corpus", "", {}
    with open(f"{folder}/stdout", encoding="utf-8", errors="replace") as file:
        for line in file:
            command = line[len("$ reopt ") :].rstrip("\n") if line.startswith("$ reopt ") else command
            if re.match(r"reopt: (module|verify|calls): ", line):
                shown, status = where(["--of", *command.split(" ")], f"{folder}/data", line)
                if not status:
                    places[command] = ":".join(shown.split("\n")[0].split(":")[:3])
    found = "".join(f"{it}: {at}\n" for it, at in places.items())
    if found != CORPUS:
        known = set(CORPUS.splitlines())
        wrong += [f"another place: {it}" for it in found.splitlines() if it not in known] or ["refusals of crates/corpus are missing"]


def main():
    wrong = []
    with tempfile.TemporaryDirectory(prefix="reopt-where-") as folder:
        by_hand(folder, wrong)
    by_table(wrong)
    print("\n".join(f"test_where: {it}" for it in wrong) or f"test_where: {len(COUNTED_CASES) + len(SHORT) + 4 + CORPUS.count(chr(10))} places as they should be")
    return 1 if wrong else 0


if __name__ == "__main__":
    sys.exit(main())

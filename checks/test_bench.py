#!/usr/bin/env python3
"""Tries what bench/ does without a program: that each script refuses bad words by one clear line and leaves nothing behind, what the timeline shows, and
how units are told."""

import json
import os
import re
import subprocess
import sys
import tempfile

TOP = os.path.dirname(os.path.dirname(os.path.realpath(__file__)))

# Words that each script refuses, with the status.
REFUSED = [
    ("corpus/build.sh", [], 3),
    ("corpus/build.sh", ["no such folder"], 3),
    ("texts/build.sh", ["word"], 3),
    ("corpus/store.py", ["only"], 3),
    ("read/run", ["quickly"], 3),
    ("verify/run", ["proved", "twice"], 3),
    ("harts/run", ["0"], 3),
    ("quick/run", ["many"], 3),
    ("eval/run", ["-1"], 3),
    ("code/run", ["no such name"], 3),
    ("code/run", ["gcd", "--to"], 3),
    ("code/run", ["--to", "no such folder"], 4),
    ("emulate/run", ["1", "2"], 3),
    ("stress/run", ["1.5"], 3),
    ("hostile/run", ["--only"], 3),
    ("hostile/run", ["--only", "pictures"], 3),
    ("hostile/run", ["--minutes", "0"], 3),
    ("hostile/run", ["--seed", "-1"], 3),
    ("hostile/run", ["--seed", "1", "--seed", "2"], 3),
    ("hostile/run", ["texts"], 3),
    ("hostile/run", ["--to", "no such folder"], 4),
    ("plots/run", ["a", "b"], 3),
    ("plots/run", ["--only", "pictures"], 3),
    ("plots/run", ["no such folder"], 4),
    ("timeline/run", [], 3),
    ("timeline/run", ["module.ll"], 3),
    ("timeline/run", ["module.ll", "--to"], 3),
    ("timeline/run", ["module.ll", "list.calls", "--to", "no such folder"], 4),
    ("timeline/run", ["module.ll", "list.calls"], 4),
    ("timeline/run", ["--lines", "lines", "module.ll"], 4),
]

MODULE = "define i64 @step(i64 %x) {\n  ret i64 %x\n}\ndefine i64 @\"two words\"(i64 %n) {\n  ret i64 %n\n}\n"
# Hart 0 enters symbol 1, then symbol 0 twice: before and after its level 2 is linked. Times are in nanoseconds.
LINES = """at 100 linked 0 1 16777220
at 1000 entry 0 0 1 16777300
at 1200 entry 0 0 0 16777220
at 1500 entry 1 1 1 16777300
at 2000 linked 0 2 16777400
at 2100 entry 0 0 0 16777400
at 2600 ended 1 1
at 3000 ended 0 0
"""
# Each stretch as a trace viewer reads it: the name, the hart, when it begins and how long it takes, in microseconds.
STRETCHES = [
    ("@two words level 1", 0, 1.0, 0.2),
    ("@step level 1", 0, 1.2, 0.9),
    ("@step level 2", 0, 2.1, 0.9),
    ("@two words level 1", 1, 1.5, 1.1),
]
# A function in the form that clang writes. Its blocks cost 2 for the entry, 3 for the address, 5 for the built-in and 3 for the switch; 3 for the call and
# 1 for the branch; and 1 for the phi and 1 for the return. The built-in moves 12 bytes.
TOLD = """define i64 @f(i64 %n, ptr %p) {
entry:
  call void @llvm.lifetime.start.p0(i64 8, ptr %p)
  %q = getelementptr inbounds [4 x i32], ptr %p, i64 0, i64 %n, !dbg !1
  call void @llvm.memcpy.p0.p0.i64(ptr align 4 dereferenceable(8) %p, ptr align 4 %q, i64 12, i1 false), !tbaa !2
  switch i64 %n, label %two [
    i64 1, label %one
    i64 2, label %two
  ]

one:                                              ; preds = %entry
  %c = tail call i64 @f(i64 noundef 3, ptr null) #1
  br label %two

two:                                              ; preds = %entry, %entry, %one
  %r = phi i64 [ 0, %entry ], [ 0, %entry ], [ %c, %one ]
  ret i64 %r
}
"""
UNITS = ["13", "12", "4", "2"]


def ran(script, words, room):
    return subprocess.run([f"{TOP}/bench/{script}" if script.endswith(("run", ".sh")) else sys.executable, *([] if script.endswith(("run", ".sh")) else [f"{TOP}/bench/{script}"]), *words],
                          cwd=room, capture_output=True, text=True, stdin=subprocess.DEVNULL, timeout=60)


def refusals(wrong):
    for script, words, status in REFUSED:
        with tempfile.TemporaryDirectory(prefix="reopt-bench-") as room:
            told = ran(script, words, room)
            if told.returncode != status:
                wrong.append(f"bench/{script} {words}: status {told.returncode}, and not {status}: {told.stderr}")
            if told.stdout or len(told.stderr.splitlines()) != 1:
                wrong.append(f"bench/{script} {words} says {told.stdout + told.stderr!r}, and not one line of its own")
            if os.listdir(room):
                wrong.append(f"bench/{script} {words} leaves {os.listdir(room)}")


def timeline(wrong):
    with tempfile.TemporaryDirectory(prefix="reopt-bench-") as room:
        for name, text in (("module.ll", MODULE), ("lines", LINES)):
            with open(f"{room}/{name}", "w", encoding="utf-8") as file:
                file.write(text)
        told = ran("timeline/run", ["--lines", "lines", "module.ll"], room)
        if told.returncode:
            wrong.append(f"bench/timeline/run: status {told.returncode}: {told.stderr}")
            return
        with open(f"{room}/timeline.json", encoding="utf-8") as file:
            events = json.load(file)["traceEvents"]
        found = [(it["name"], it["tid"], it["ts"], round(it["dur"], 6)) for it in events if it["ph"] == "X"]
        if found != STRETCHES:
            wrong.append(f"bench/timeline/run: {found}, and not {STRETCHES}")
        linked = [it["name"] for it in events if it["ph"] == "i" and "linked" in it["name"]]
        if linked != ["@step level 1 is linked", "@step level 2 is linked"]:
            wrong.append(f"bench/timeline/run: {linked}")
        with open(f"{room}/timeline.svg", encoding="utf-8") as file:
            picture = file.read()
        for part in ("@step, level 2, call 0", "hart 1", "4 entries, 2 publications, 2 calls on 2 harts"):
            if part not in picture:
                wrong.append(f"bench/timeline/run: its picture has no {part!r}")


def units(wrong):
    sys.path.insert(0, f"{TOP}/bench/code")
    from units import telling

    found = re.findall(r"call void @units\.of\.a\.block\(i64 (\w+)\)", telling(TOLD))
    if found != UNITS:
        wrong.append(f"bench/code/units.py tells {found}, and not {UNITS}")


def main():
    sys.dont_write_bytecode = True
    wrong = []
    refusals(wrong)
    timeline(wrong)
    units(wrong)
    print("\n".join(wrong) if wrong else f"test_bench: {len(REFUSED)} refusals, a timeline and units as they should be")
    return 1 if wrong else 0


if __name__ == "__main__":
    sys.exit(main())

"""Texts and options at each limit and past it, and texts that go deep."""

import re

from trial import Pair, command_of

SECONDS = 240
AGAIN = "(bench/hostile/run --only limits --to FOLDER keeps its files)"
RET = "define void @f() {\n  ret void\n}\n"
CALL = "@f()\n"


def often(piece, many):
    return "".join(piece.replace("#", str(it)) for it in range(many))


def body(lines, head="define i64 @f(ptr %p, i64 %a) {\n", end="  ret i64 %a\n}\n"):
    return head + lines + end


def switch(cases):
    return body(f"  switch i64 %a, label %out [\n{often('    i64 #, label %out' + chr(10), cases)}  ]\nout:\n")


def nested(front, inner, back, many):
    return front * many + inner + back * many


def indexed(many, more):
    return body(often("  %v# = getelementptr [1 x i8], ptr %p, i64 0, i64 0\n", many) + often("  %w# = add i64 %a, 1\n", more))


def at_limits():
    """Yields a name, a module, a list, options of run, and the status with the line that is wanted."""
    yield "bytes", " " * 4194304, "", [], 0, ""
    yield "bytes and one more", " " * 4194305, "", [], 2, "module: limit bytes 4194305"
    for many, line in ((1024, ""), (1025, "module: limit functions 1025")):
        yield f"{many} functions", often("define void @f#() {\n  ret void\n}\n", many), "@f1023()\n", [], 2 if line else 0, line
    for many, line in ((4096, ""), (4097, "module: limit globals 4097")):
        yield f"{many} globals", often("@g# = global i8 0\n", many), "", [], 2 if line else 0, line
    for many, line in ((8, ""), (9, "module: limit parameters 9")):
        yield f"{many} parameters", f"define void @f({', '.join(['i64'] * many)}) {{\n  ret void\n}}\n", "", [], 2 if line else 0, line
    over = "module: limit units 16385"
    for more, line in ((0, ""), (1, over)):
        status = 2 if line else 0
        yield f"units of instructions, {more} too many", body(often("  %v# = add i64 %a, 1\n", 16383 + more)), "@f(ptr null, i64 1)\n", [], status, line
        yield f"units of cases, {more} too many", switch(16382 + more), "@f(ptr null, i64 1)\n", [], status, line
        yield f"units of indices, {more} too many", indexed(5461, more), "@f(ptr null, i64 1)\n", [], status, line
    for many, line in ((4095, ""), (4096, "module: limit nodes 4097")):
        yield f"{many} arrays", f"@g = global {nested('[1 x ', 'i8', ']', many)} zeroinitializer\n", "", [], 2 if line else 0, line
        yield f"{many} fields", f"@g = global {{ {', '.join(['i8'] * many)} }} zeroinitializer\n", "", [], 2 if line else 0, line
    for size, line in ((1 << 32, ""), ((1 << 32) + 1, "module: limit size 4294967297")):
        yield f"a size of {size}", body(f"  %q = getelementptr [{size} x i8], ptr %p, i64 0, i64 0\n"), "@f(ptr null, i64 1)\n", [], 2 if line else 0, line
    for size, line in ((4096, ""), (4097, "image: needs 4112 bytes, has 4096")):
        yield f"globals of {size} bytes", f"@g = global [{size} x i8] zeroinitializer\n{RET}", CALL, ["--room", "4096"], 2 if line else 0, line


def of_lists():
    """The same for lists of calls and words of code."""
    for many, line in ((65536, ""), (65537, "calls: limit 65537")):
        yield f"{many} calls", RET, CALL * many, [], 2 if line else 0, line
    for turns, line in (("3", ""), ("4294967296", ""), ("0", "calls: line 1: syntax"), ("4294967297", "calls: line 1: syntax"), ("9" * 1000, "calls: line 1: syntax")):
        yield f"turns {turns[:20]}", RET, f"@f() turns {turns}\n", [], 2 if line else 0, line
    yield "width 64", "define i64 @f(i64 %a) {\n  ret i64 %a\n}\n", "@f(i64 -9223372036854775808)\n@f(i64 18446744073709551615)\n", [], 0, ""
    yield "past width 64", "define i64 @f(i64 %a) {\n  ret i64 %a\n}\n", "@f(i64 18446744073709551616)\n", [], 2, "calls: line 1: wrong arguments"
    yield "below width 64", "define i64 @f(i64 %a) {\n  ret i64 %a\n}\n", "@f(i64 -9223372036854775809)\n", [], 2, "calls: line 1: wrong arguments"
    for width in (129, 8388607, 10**40):
        yield f"width {str(width)[:10]}", f"define void @f(i{width} %a) {{\n  ret void\n}}\n", "", [], 2, f"module: left out at 15: i{width}"
    yield "align 16", "@g = global i8 0, align 16\n", "", [], 0, ""
    yield "align 32", "@g = global i8 0, align 32\n", "", [], 2, "module: left out at 18: align"
    yield "the end of the control stack", body("  %r = call i64 @f(ptr %p, i64 %a)\n"), "@f(ptr null, i64 1) turns 4000000000\n", [], 1, ""


def deep():
    """Yields a name, a module and a list of what may be refused or not, but ends."""
    many = 100000
    for name, front in (("braces", "{"), ("parentheses", "("), ("brackets", "["), ("arrays", "[1 x "), ("packed", "<{"), ("metadata", "!{"), ("quotes", '"'), ("signs", "@")):
        for head in ("@g = global ", "%t = type ", "!0 = ", "define ", "define void @f() {\n  ", "attributes #0 = ", "@g = global i8 ", ""):
            yield f"{many} {name} behind {head!r}", head + front * many, ""
    for name, front, back in (("structs", "{", "}"), ("packed structs", "<{", "}>"), ("arrays", "[1 x ", "]")):
        yield f"{many} {name}, a type", f"%t = type {nested(front, 'i8', back, many)}\n", ""
        yield f"{many} {name}, a global", f"@g = global {nested(front, 'i8', back, many)} zeroinitializer\n", ""
    yield f"{many} nodes of metadata", f"!0 = {nested('!{', '', '}', many)}\n{RET}", CALL
    inner = nested("getelementptr (i8, ptr ", "@h", ", i64 1)", 20000)
    yield "20,000 addresses in one another", f"@h = global i8 0\n@g = global ptr {inner}\n", ""
    yield "types that double", "%t0 = type { i8, i8 }\n" + "".join(f"%t{it + 1} = type {{ %t{it}, %t{it} }}\n" for it in range(80)) + "@g = global %t80 zeroinitializer\n", ""
    yield "arrays that multiply", f"@g = global {nested('[4294967295 x ', 'i8', ']', 60)} zeroinitializer\n", ""
    yield "arrays of nothing", f"@g = global [18446744073709551615 x [0 x i8]] zeroinitializer\n{RET}", CALL
    yield "4,000 types in a row", "%t0 = type { i8 }\n" + "".join(f"%t{it + 1} = type {{ %t{it} }}\n" for it in range(4000)) + "@g = global %t4000 zeroinitializer\n", ""
    yield "a long name", f"define void @{'f' * 1000000}() {{\n  ret void\n}}\n", f"@{'f' * 1000000}()\n"
    yield "a long number", f"define i64 @f() {{\n  ret i64 {'0' * 1000000}7\n}}\n", f"@f()\n@f() turns {'0' * 1000000}7\n"
    yield "a long comment", ";" * 4000000 + "\n" + RET, ";" * 1000000 + "\n" + CALL
    yield "a long string", f'@g = global [900000 x i8] c"{"a" * 900000}"\n{RET}', CALL
    yield "many empty lines", RET + "\n" * 4000000, "\n" * 1000000 + CALL


def wide():
    """Yields functions whose parts multiply."""
    blocks = 4000
    chain = "".join(f"b{it}:\n  br label %b{it + 1}\n" for it in range(blocks))
    yield f"{blocks} blocks in a row", body(f"  br label %b0\n{chain}b{blocks}:\n"), "@f(ptr null, i64 1)\n"
    edges = "".join(f"b{it}:\n  %c{it} = icmp eq i64 %a, {it}\n  br i1 %c{it}, label %out, label %b{it + 1}\n" for it in range(blocks))
    operands = ", ".join(f"[ {it}, %b{it} ]" for it in range(blocks + 1))
    yield f"a phi of {blocks + 1} operands", f"define i64 @f(ptr %p, i64 %a) {{\n  br label %b0\n{edges}b{blocks}:\n  br label %out\nout:\n  %r = phi i64 {operands}\n  ret i64 %r\n}}\n", "@f(ptr null, i64 3999)\n"
    cases = 1000
    pairs = ", ".join(["[ %a, %e ]"] * (cases + 1))
    phis = "".join(f"  %r{it} = phi i64 {pairs}\n" for it in range(20))
    yield f"20 phis of {cases} cases", f"define i64 @f(ptr %p, i64 %a) {{\ne:\n  switch i64 %a, label %out [\n{often('    i64 #, label %out' + chr(10), cases)}  ]\nout:\n{phis}  ret i64 %r0\n}}\n", "@f(ptr null, i64 999)\n"
    yield "values that aren't assigned", body(f"  br label %b0\n{chain}b{blocks}:\n  %s = add i64 %late, 1\n  ret i64 %s\nnever:\n  %late = add i64 %a, 1\n"), "@f(ptr null, i64 1)\n"


OPTIONS = [("--harts", "0", 3), ("--harts", "1", 0), ("--harts", "16", 0), ("--harts", "17", 3), ("--workers", "0", 0), ("--workers", "8", 0), ("--workers", "9", 3),
           ("--code-words", "0", 3), ("--code-words", "1", 7), ("--code-words", "4194304", 0), ("--code-words", "4194305", 3), ("--room", "4080", 3), ("--room", "4095", 3),
           ("--room", "4096", 0), ("--room", "4100", 3), ("--room", "67108864", 0), ("--room", "67108880", 3), ("--room", "18446744073709551616", 3), ("--harts", "-1", 3),
           ("--harts", "", 3), ("--harts", "1 ", 3), ("--draw", "1", 3), ("--steps", "1", 3), ("--level", "1", 3), ("--nothing", "1", 3)]


def options(trial):
    """Tries run with each option at its ends, and with code words that just fit."""
    pair = Pair(trial, RET.encode(), CALL.encode(), "an option", AGAIN)
    listed = trial.program.run(["dump", pair.paths[0]])
    fits = sum(int(it) + 1 for it in re.findall(rb"^@.* words (\d+)$", listed.out, re.M))
    lines = {0: "", 3: "reopt: usage\n"}
    for option, word, status in [*OPTIONS, ("--code-words", str(fits), 0), ("--code-words", str(fits - 1), 7)]:
        words = ["run", *pair.paths, option, word]
        answer = trial.program.run(words, SECONDS)
        line = lines.get(status, f"reopt: code: needs {fits} words, has {word}\n").encode()
        if (answer.status, answer.err, answer.out) != (status, line, b"" if status else b"@f() = void\n"):
            trial.found(f"{option} {word!r}: {answer.shown()}, and not status {status}", command_of(words), pair.paths, AGAIN)


def exactly(trial, name, module, calls, words, status, line):
    """Tries eval and run on a text with exactly this status and line."""
    pair = Pair(trial, module.encode(), calls.encode(), name, AGAIN)
    wanted = f"reopt: {line}\n".encode() if line else b""
    for command in ("eval", "run"):
        answer = pair.run(command, words, SECONDS)
        if not pair.fault and (answer.status, answer.err) != (status, wanted):
            trial.found(f"{name}: {answer.shown()}, and not status {status} with {wanted!r}", command_of([command, *pair.paths, *words]), pair.paths, AGAIN)


def ends(trial, name, module, calls):
    """Tries eval on a text, and run where that answers."""
    pair = Pair(trial, module.encode(), calls.encode(), name, AGAIN)
    if pair.run("eval", seconds=SECONDS).status in (0, 1):
        pair.run("run", seconds=SECONDS)


def limits(trial):
    count, tries = 0, [(options,), *[(exactly, *it) for it in [*of_lists(), *at_limits()]], *[(ends, *it) for it in [*deep(), *wide()]]]
    for tried, *words in tries:
        if trial.left() < 0 and count:
            return f"{count} of {len(tries)} tries, as far as the time went"
        tried(trial, *words)
        count += 1
    return f"{count} tries"

#!/usr/bin/env python3
"""Makes data/KIND_rows.ll and data/KIND_rows.calls: a function for each operator, flag and width, and calls at the ends of
their ranges. Prints what each call comes to, worked out here with whole numbers by LLVM's language reference and not by
the code that they try. With the kind `run` it leaves out the calls without a meaning, of which a run may answer
anything.
Usage: crates/corpus/rows.py crates/corpus eval|run"""
import sys

WIDTHS = [1, 5, 8, 31, 32, 33, 63, 64]
FLAGS = {
    **{op: ["", "nuw", "nsw", "nuw nsw"] for op in ("add", "sub", "mul", "shl")},
    **{op: ["", "exact"] for op in ("udiv", "sdiv", "lshr", "ashr")},
    **{op: [""] for op in ("urem", "srem", "and", "xor")},
    "or": ["", "disjoint"],
}
PREDS = ["eq", "ne", "ugt", "uge", "ult", "ule", "sgt", "sge", "slt", "sle"]
SHIFTS = ("shl", "lshr", "ashr")
DIVISIONS = ("udiv", "sdiv", "urem", "srem")
POISON, UNDEFINED = "poison", "undefined"


def signed(w, n):
    return n - (1 << w) if n >> (w - 1) else n


def low(w, n):
    return n % (1 << w)


def towards_zero(a, b):
    q = abs(a) // abs(b)
    return q if (a < 0) == (b < 0) else -q


def division(op, flags, w, a, b):
    if b is None or b == 0:
        return UNDEFINED
    if op[0] == "s" and a == 1 << (w - 1) and b == (1 << w) - 1:
        return UNDEFINED
    if a is None:
        return POISON
    x, y = (signed(w, a), signed(w, b)) if op[0] == "s" else (a, b)
    q = towards_zero(x, y)
    r = x - q * y
    if op[1:] == "rem":
        return low(w, r)
    return POISON if "exact" in flags and r != 0 else low(w, q)


def arithmetic(op, flags, w, a, b):
    whole = {"add": lambda x, y: x + y, "sub": lambda x, y: x - y, "mul": lambda x, y: x * y}[op]
    if "nuw" in flags and not 0 <= whole(a, b) < 1 << w:
        return POISON
    if "nsw" in flags and not -(1 << (w - 1)) <= whole(signed(w, a), signed(w, b)) < 1 << (w - 1):
        return POISON
    return low(w, whole(a, b))


def shift(op, flags, w, a, b):
    if b >= w:
        return POISON
    if op == "shl":
        got = low(w, a << b)
        lost = "nuw" in flags and got >> b != a or "nsw" in flags and signed(w, got) >> b != signed(w, a)
        return POISON if lost else got
    if "exact" in flags and (a >> b) << b != a:
        return POISON
    return a >> b if op == "lshr" else low(w, signed(w, a) >> b)


def binary(op, flags, w, a, b):
    if op in DIVISIONS:
        return division(op, flags, w, a, b)
    if a is None or b is None:
        return POISON
    if op in ("add", "sub", "mul"):
        return arithmetic(op, flags, w, a, b)
    if op in SHIFTS:
        return shift(op, flags, w, a, b)
    if "disjoint" in flags and a & b:
        return POISON
    return {"and": a & b, "or": a | b, "xor": a ^ b}[op]


def compared(pred, same, w, a, b):
    if a is None or b is None or same and (a >> (w - 1)) != (b >> (w - 1)):
        return POISON
    x, y = (signed(w, a), signed(w, b)) if pred[0] == "s" else (a, b)
    return int({"eq": x == y, "ne": x != y, "gt": x > y, "ge": x >= y, "lt": x < y, "le": x <= y}[pred[-2:]])


def cast(op, flags, w, to, a):
    if op == "trunc":
        got = low(to, a)
        lost = "nuw" in flags and got != a or "nsw" in flags and signed(to, got) != signed(w, a)
        return POISON if lost else got
    if op == "zext":
        return POISON if "nneg" in flags and a >> (w - 1) else a
    return low(to, signed(w, a))


def greatest(op, w, a, b):
    key = (lambda n: signed(w, n)) if op[0] == "s" else (lambda n: n)
    return (max if op.endswith("max") else min)(a, b, key=key)


def ends(w):
    return sorted({0, 1, (1 << (w - 1)) - 1, 1 << (w - 1), (1 << w) - 1})


def amounts(w):
    return sorted({0, 1, low(w, w - 1), low(w, w), (1 << w) - 1})


def shown(w, n):
    return ("true" if n else "false") if w == 1 else str(signed(w, n))


class Rows:
    def __init__(self, run):
        self.run, self.functions, self.calls, self.lines = run, [], [], []

    def function(self, name, result, params, body, given, meaning):
        """A function of params (widths), its body with the value %r at its end, and its calls on the lists of numbers."""
        defined = [(args, got) for args in given for got in [meaning(*args)] if not (self.run and got in (POISON, UNDEFINED))]
        if not defined:
            return
        listed = ", ".join(f"i{w} %{letter}" for w, letter in zip(params, "abc"))
        self.functions.append(f"define i{result} @{name}({listed}) {{\n{body}  ret i{result} %r\n}}\n")
        for args, got in defined:
            numbers = ", ".join(f"i{w} {shown(w, n)}" for w, n in zip(params, args))
            answers = ", ".join(shown(w, n) for w, n in zip(params, args))
            end = "undefined" if got in (POISON, UNDEFINED) else shown(result, got)
            self.calls.append(f"@{name}({numbers})\n")
            self.lines.append(f"@{name}({answers}) = {end}\n")


def binaries(rows):
    for op, kinds in FLAGS.items():
        for flags in kinds:
            for w in WIDTHS:
                name = "_".join([op, *flags.split(), str(w)])
                given = [(a, b) for a in ends(w) for b in (amounts(w) if op in SHIFTS else ends(w))]
                inst = f"{op} {flags} i{w}".replace("  ", " ")
                rows.function(name, w, [w, w], f"  %r = {inst} %a, %b\n", given, lambda a, b: binary(op, flags, w, a, b))
                if op in DIVISIONS or op == "shl":
                    unused = lambda a, b: UNDEFINED if binary(op, flags, w, a, b) == UNDEFINED else 1
                    rows.function(name + "_unused", 1, [w, w], f"  %x = {inst} %a, %b\n  %r = add i1 0, 1\n", given, unused)
                if w in (8, 33):
                    rows.function(name + "_of_poison", w, [w], f"  %r = {inst} poison, %a\n", [(n,) for n in ends(w)], lambda b: binary(op, flags, w, None, b))
                    rows.function(name + "_by_poison", w, [w], f"  %r = {inst} %a, poison\n", [(n,) for n in ends(w)], lambda a: binary(op, flags, w, a, None))


def compares(rows):
    for pred in PREDS:
        for w in WIDTHS:
            given = [(a, b) for a in ends(w) for b in ends(w)]
            rows.function(f"{pred}_{w}", 1, [w, w], f"  %r = icmp {pred} i{w} %a, %b\n", given, lambda a, b: compared(pred, False, w, a, b))
            if w in (8, 64):
                rows.function(f"{pred}_samesign_{w}", 1, [w, w], f"  %r = icmp samesign {pred} i{w} %a, %b\n", given, lambda a, b: compared(pred, True, w, a, b))


def casts(rows):
    for low_width in WIDTHS:
        for w in WIDTHS:
            if low_width < w:
                for flags in ["", "nuw", "nsw", "nuw nsw"] if low_width in (8, 32) else [""]:
                    name = "_".join(["trunc", *flags.split(), str(w), str(low_width)])
                    inst = f"trunc {flags} i{w}".replace("  ", " ")
                    rows.function(name, low_width, [w], f"  %r = {inst} %a to i{low_width}\n", [(n,) for n in sorted(set(ends(w) + ends(low_width)))], lambda a: cast("trunc", flags, w, low_width, a))
                for op, flags in (("zext", ""), ("zext", "nneg"), ("sext", "")):
                    name = "_".join([op, *flags.split(), str(low_width), str(w)])
                    inst = f"{op} {flags} i{low_width}".replace("  ", " ")
                    rows.function(name, w, [low_width], f"  %r = {inst} %a to i{w}\n", [(n,) for n in ends(low_width)], lambda a: cast(op, flags, low_width, w, a))


def choices(rows):
    for w in WIDTHS:
        given = [(c, a, b) for c in (0, 1) for a, b in ((0, 1), (1, (1 << w) - 1))]
        rows.function(f"select_{w}", w, [1, w, w], f"  %r = select i1 %a, i{w} %b, i{w} %c\n", given, lambda c, a, b: a if c else b)
        rows.function(f"freeze_{w}", w, [w], f"  %r = freeze i{w} %a\n", [(n,) for n in ends(w)], lambda a: a)
    rows.function("select_by_poison", 8, [8], "  %r = select i1 poison, i8 %a, i8 %a\n", [(7,)], lambda a: POISON)
    rows.function("select_spares_poison", 8, [8], "  %r = select i1 true, i8 %a, i8 poison\n", [(7,)], lambda a: a)
    rows.function("freeze_of_poison", 8, [8], "  %r = freeze i8 poison\n", [(7,)], lambda a: UNDEFINED)


def built_ins(rows):
    for w in WIDTHS:
        given = [(a, b) for a in ends(w) for b in ends(w)]
        for op in ("smax", "smin", "umax", "umin"):
            rows.function(f"{op}_{w}", w, [w, w], f"  %r = call i{w} @llvm.{op}.i{w}(i{w} %a, i{w} %b)\n", given, lambda a, b: greatest(op, w, a, b))
        for mark in ("true", "false"):
            least = lambda a: POISON if mark == "true" and a == 1 << (w - 1) else low(w, abs(signed(w, a)))
            rows.function(f"abs_{mark}_{w}", w, [w], f"  %r = call i{w} @llvm.abs.i{w}(i{w} %a, i1 {mark})\n", [(n,) for n in ends(w)], least)


def small(n):
    """The bytes of a 32-bit number, the lowest first."""
    return [n >> (8 * i) & 255 for i in range(4)]


def number(bytes_):
    return sum(b << (8 * i) for i, b in enumerate(bytes_))


# The first `alloca` of a call of a module without globals stands at the start of data memory.
START = 0x1000_0000
LEAST_32, GREATEST_64 = 1 << 31, (1 << 64) - 1


def memory(rows):
    for w in (8, 16, 32, 64):
        body = f"  %p = alloca i{w}\n  store i{w} %a, ptr %p\n  %r = load i{w}, ptr %p\n"
        rows.function(f"store_load_{w}", w, [w], body, [(n,) for n in ends(w)], lambda a: a)
        rows.function(f"load_fresh_{w}", w, [], f"  %p = alloca i{w}\n  %r = load i{w}, ptr %p\n", [()], lambda: POISON)
        rows.function(f"store_poison_{w}", w, [w], f"  %p = alloca i{w}\n  store i{w} %a, ptr %p\n  store i{w} poison, ptr %p\n  %r = load i{w}, ptr %p\n", [(1,)], lambda a: POISON)
        rows.function(f"load_null_{w}", w, [], f"  %r = load i{w}, ptr null\n", [()], lambda: UNDEFINED)
        past = f"  %p = alloca [16 x i8]\n  %q = getelementptr i8, ptr %p, i64 %a\n  store i{w} 0, ptr %q\n  %r = load i{w}, ptr %q\n"
        rows.function(f"edge_of_memory_{w}", w, [64], past, [(16 - w // 8,), (17 - w // 8,), (GREATEST_64,)], lambda a: 0 if a == 16 - w // 8 else UNDEFINED)
    part = "  %p = alloca i32\n  store i32 %a, ptr %p\n  %q = getelementptr i8, ptr %p, i64 %b\n  %r = load i8, ptr %q\n"
    rows.function("bytes_of_a_number", 8, [32, 64], part, [(n, i) for n in (0x12345678, LEAST_32, 5) for i in range(4)], lambda a, i: small(a)[i])
    one = "  %p = alloca i32\n  store i8 %a, ptr %p\n  %r = load i32, ptr %p\n"
    rows.function("one_poison_byte", 32, [8], one, [(1,)], lambda a: POISON)
    rows.function("place_of_alloca", 64, [], "  %p = alloca i8\n  %r = ptrtoint ptr %p to i64\n", [()], lambda: START)
    rows.function("place_of_the_next", 64, [], "  %o = alloca [17 x i8]\n  %p = alloca i8\n  %r = ptrtoint ptr %p to i64\n", [()], lambda: START + 32)
    rows.function("place_behind_a_call", 64, [64], "  %o = call i64 @place_of_alloca()\n  %p = alloca i8\n  %r = ptrtoint ptr %p to i64\n", [(1,)], lambda a: START)
    for w in (8, 32, 33, 64):
        rows.function(f"pointer_of_{w}", 64, [w], f"  %p = inttoptr i{w} %a to ptr\n  %r = ptrtoint ptr %p to i64\n", [(n,) for n in ends(w)], lambda a: a)
        rows.function(f"number_of_pointer_{w}", w, [64], f"  %p = inttoptr i64 %a to ptr\n  %r = ptrtoint ptr %p to i{w}\n", [(n,) for n in ends(64)], lambda a: low(w, a))
        rows.function(f"bitcast_{w}", w, [w], f"  %r = bitcast i{w} %a to i{w}\n", [(n,) for n in ends(w)], lambda a: a)
        index = f"  %q = getelementptr i32, ptr null, i{w} %a\n  %r = ptrtoint ptr %q to i64\n"
        rows.function(f"index_of_{w}", 64, [w], index, [(n,) for n in ends(w)], lambda a: low(64, 4 * signed(w, a)))
    field = "  %q = getelementptr {{i8, [3 x i64]}}, ptr null, i64 %a, i32 1, i64 %b\n  %r = ptrtoint ptr %q to i64\n".format()
    rows.function("field_and_element", 64, [64, 64], field, [(0, 0), (1, 2), (GREATEST_64, GREATEST_64)], lambda a, b: low(64, 32 * signed(64, a) + 8 + 8 * signed(64, b)))


def moves(rows):
    word = "  %p = alloca [2 x i32]\n  store i32 %a, ptr %p\n  %q = getelementptr i8, ptr %p, i64 %b\n"
    back = "  %r = load i32, ptr {}\n"
    shifts = [(0x12345678, 0), (0x12345678, 1), (0x12345678, 3)]
    moved = lambda a, i: number((small(a)[:i] + small(a))[:4])
    for name, meaning in (("memmove", moved), ("memcpy", lambda a, i: a if i == 0 else UNDEFINED)):
        call = f"  call void @llvm.{name}.p0.p0.i64(ptr %q, ptr %p, i64 4, i1 false)\n"
        rows.function(f"{name}_onto_itself", 32, [32, 64], word + call + back.format("%p"), shifts, meaning)
        apart = f"  %s = getelementptr i32, ptr %p, i64 1\n  call void @llvm.{name}.p0.p0.i64(ptr %s, ptr %p, i64 4, i1 false)\n"
        rows.function(f"{name}_apart", 32, [32, 64], word + apart + back.format("%s"), [(0x12345678, 0)], lambda a, i: a)
        short = f"  call void @llvm.{name}.p0.p0.i64(ptr null, ptr null, i64 %a, i1 false)\n  %r = add i64 %a, 1\n"
        rows.function(f"{name}_of_null", 64, [64], short, [(0,), (1,)], lambda a: 1 if a == 0 else UNDEFINED)
        poison = f"  %p = alloca [2 x i32]\n  %q = getelementptr i32, ptr %p, i64 1\n  store i32 %a, ptr %q\n  call void @llvm.{name}.p0.p0.i32(ptr %q, ptr %p, i32 2, i1 false)\n" + back.format("%q")
        rows.function(f"{name}_of_poison_bytes", 32, [32], poison, [(1,)], lambda a: POISON)
    fill = "  %p = alloca i32\n  store i32 0, ptr %p\n  call void @llvm.memset.p0.i64(ptr %p, i8 %a, i64 %b, i1 false)\n  %r = load i32, ptr %p\n"
    filled = lambda a, n: UNDEFINED if n > 16 else number(([a] * n + [0] * 4)[:4])
    rows.function("memset", 32, [8, 64], fill, [(0xAB, 0), (0xAB, 2), (0xFF, 4), (1, 16), (1, 17)], filled)
    rows.function("memset_by_poison", 32, [32], "  %p = alloca i32\n  store i32 %a, ptr %p\n  call void @llvm.memset.p0.i64(ptr %p, i8 poison, i64 1, i1 false)\n  %r = load i32, ptr %p\n", [(7,)], lambda a: POISON)
    rows.function("memset_of_poison_length", 64, [64], "  %p = alloca i32\n  call void @llvm.memset.p0.i64(ptr %p, i8 0, i64 poison, i1 false)\n  %r = add i64 %a, 1\n", [(7,)], lambda a: UNDEFINED)


def control(rows):
    for w in (1, 8, 33, 64):
        top = (1 << w) - 1
        cases = f"  switch i{w} %a, label %other [ i{w} {shown(w, 0)}, label %none  i{w} {shown(w, top)}, label %all ]\nother:\n  br label %out\nnone:\n  br label %out\nall:\n  br label %out\nout:\n  %r = phi i8 [ 3, %other ], [ 1, %none ], [ 2, %all ]\n"
        rows.function(f"switch_{w}", 8, [w], cases, [(n,) for n in ends(w)], lambda a: 1 if a == 0 else 2 if a == top else 3)
    rows.function("switch_of_poison", 8, [8], "  switch i8 poison, label %out [ ]\nout:\n  %r = add i8 %a, 0\n", [(1,)], lambda a: UNDEFINED)
    branch = "  br i1 {}, label %x, label %y\nx:\n  br label %out\ny:\n  br label %out\nout:\n  %r = phi i8 [ 1, %x ], [ 2, %y ]\n"
    rows.function("branch", 8, [1], branch.format("%a"), [(0,), (1,)], lambda a: 1 if a else 2)
    rows.function("branch_of_poison", 8, [1], branch.format("poison"), [(0,)], lambda a: UNDEFINED)
    rows.function("unreachable_is_reached", 8, [1], "  br i1 %a, label %x, label %out\nx:\n  unreachable\nout:\n  %r = add i8 1, 2\n", [(0,), (1,)], lambda a: UNDEFINED if a else 3)
    rows.function("poison_unused", 8, [8], "  %x = call i8 @poison_unused_by(i8 poison)\n  %r = add i8 %x, %a\n", [(4,)], lambda a: a + 1)
    rows.function("poison_unused_by", 8, [8], "  %x = add i8 %a, 1\n  %r = add i8 0, 1\n", [(4,)], lambda a: 1)
    turns = "  br label %loop\nloop:\n  %x = phi i8 [ 1, %0 ], [ %y, %loop ]\n  %y = phi i8 [ 2, %0 ], [ %x, %loop ]\n  %i = phi i8 [ 0, %0 ], [ %j, %loop ]\n  %j = add i8 %i, 1\n  %c = icmp ugt i8 %j, %a\n  br i1 %c, label %out, label %loop\nout:\n  %r = add i8 %x, 0\n"
    rows.function("phis_at_once", 8, [8], turns, [(0,), (1,), (2,), (3,)], lambda a: 1 if a % 2 == 0 else 2)


def recursion(rows):
    """Room for data in recursion, and bytes that are moved both ways, without an address of a part."""
    head = "  %p = alloca i64\n  store i64 %a, ptr %p\n  %q = ptrtoint ptr %p to i64\n  %z = icmp eq i64 %a, 0\n  br i1 %z, label %out, label %more\nmore:\n  %b = add i64 %a, -1\n  %s = call i64 @{}(i64 %b)\n  br label %out\nout:\n"
    own = "  %t = phi i64 [ 0, %0 ], [ %s, %more ]\n  %o = load i64, ptr %p\n  %r = add i64 %t, %o\n"
    depths = [(n,) for n in (0, 1, 2, 9, 100)]
    rows.function("room_in_recursion", 64, [64], head.format("room_in_recursion") + own, depths, lambda a: a * (a + 1) // 2)
    rows.function("top_in_recursion", 64, [64], head.format("top_in_recursion") + "  %r = phi i64 [ %q, %0 ], [ %s, %more ]\n", depths, lambda a: START + 16 * a)
    behind = "  %o = call i64 @room_in_recursion(i64 %a)\n  %p = alloca [3 x i64]\n  %q = alloca i8\n  %x = ptrtoint ptr %p to i64\n  %y = ptrtoint ptr %q to i64\n  %z = shl i64 %x, 8\n  %d = sub i64 %y, %x\n  %r = add i64 %z, %d\n"
    rows.function("top_behind_a_call", 64, [64], behind, depths, lambda a: (START << 8) + 32)
    room = "  %p = alloca [2 x i64]\n  %x = ptrtoint ptr %p to i64\n  %y = add i64 %x, %b\n  %q = inttoptr i64 %y to ptr\n"
    numbers = (0x0123456789ABCDEF, 1 << 63, 0x80)
    for width in (32, 64):
        move = f"  call void @llvm.{{}}.p0.p0.i{width}(ptr {{}}, ptr {{}}, i{width} 8, i1 false)\n"
        up = room + "  store i64 %a, ptr %p\n{}  %r = load i64, ptr %q\n"
        down = room + "  store i64 %a, ptr %q\n{}  %r = load i64, ptr %p\n"
        rows.function(f"move_up_{width}", 64, [64, 64], up.format(move.format("memmove", "%q", "%p")), [(n, i) for n in numbers for i in range(9)], lambda a, b: a)
        rows.function(f"move_down_{width}", 64, [64, 64], down.format(move.format("memmove", "%p", "%q")), [(n, i) for n in numbers for i in range(9)], lambda a, b: a)
        rows.function(f"copy_up_{width}", 64, [64, 64], up.format(move.format("memcpy", "%q", "%p")), [(n, i) for n in numbers for i in (0, 3, 8)], lambda a, b: UNDEFINED if b == 3 else a)
        fill = f"  %p = alloca i64\n  store i64 -1, ptr %p\n  call void @llvm.memset.p0.i{width}(ptr %p, i8 %a, i{width} %b, i1 false)\n  %r = load i64, ptr %p\n"
        filled = lambda a, n: UNDEFINED if n > 16 else sum((a if i < n else 255) << (8 * i) for i in range(8))
        rows.function(f"fill_{width}", 64, [8, width], fill, [(a, n) for a in (0, 0x80, 0x7F) for n in (0, 1, 7, 8, 16, 17)], filled)
        nothing = f"  call void @llvm.{{}}.p0{{}}.i{width}(ptr null, {{}}, i{width} %a, i1 false)\n  %r = add i{width} %a, 1\n"
        for name, second, what in (("memmove", ".p0", "ptr null"), ("memcpy", ".p0", "ptr null"), ("memset", "", "i8 1")):
            rows.function(f"{name}_of_nothing_{width}", width, [width], nothing.format(name, second, what), [(0,), (1,)], lambda a: 1 if a == 0 else UNDEFINED)


def main():
    folder, kind = sys.argv[1], sys.argv[2]
    rows = Rows(kind == "run")
    for part in (binaries, compares, casts, choices, built_ins, memory, moves, control, recursion):
        part(rows)
    for name, texts in (("ll", rows.functions), ("calls", rows.calls)):
        with open(f"{folder}/data/{kind}_rows.{name}", "w") as file:
            file.write("".join(texts))
    sys.stdout.write("".join(rows.lines))


main()

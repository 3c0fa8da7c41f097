"""A module of 64 functions that call one another, and calls of them. module.py MODULE CALLS"""
import sys

WORDS = 64


def function(k):
    """A loop that goes on k mod 4 + 1 times over two calls of lower functions and a word of memory."""
    lower, lowest = f"@g{k // 2}", f"@g{k // 3}"
    if k == 0:
        return ["define i64 @g0(i64 %a) {", "  %b = mul i64 %a, 6364136223846793005", "  %c = add i64 %b, 1442695040888963407", "  ret i64 %c", "}"]
    return [
        f"define i64 @g{k}(i64 %a) {{",
        "entry:",
        f"  %p = getelementptr [{WORDS} x i64], ptr @cells, i64 0, i64 {k}",
        "  br label %loop",
        "loop:",
        "  %i = phi i64 [ 0, %entry ], [ %j, %loop ]",
        "  %x = phi i64 [ %a, %entry ], [ %z, %loop ]",
        f"  %y = call i64 {lower}(i64 %x)",
        "  %s = lshr i64 %x, 7",
        f"  %t = xor i64 %s, {k}",
        f"  %u = call i64 {lowest}(i64 %t)",
        "  %o = load i64, ptr %p",
        "  %v = add i64 %y, %o",
        "  %z = xor i64 %v, %u",
        "  store i64 %z, ptr %p",
        "  %j = add i64 %i, 1",
        f"  %c = icmp ult i64 %j, {k % 4 + 1}",
        "  br i1 %c, label %loop, label %out",
        "out:",
        "  ret i64 %z",
        "}",
    ]


def main(module, calls):
    lines = [f"@cells = global [{WORDS} x i64] zeroinitializer"]
    for k in range(64):
        lines += function(k)
    open(module, "w").write("\n".join(lines) + "\n")
    open(calls, "w").write("".join(f"@g{(7 * i) % 64}(i64 {i * i - 40})\n" for i in range(96)))


main(*sys.argv[1:])

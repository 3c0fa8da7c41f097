"""The answers to a list of calls of a C file, by a native compiler.

answers.py FILE.c FILE.calls: prints a line per call, as reopt does.
"""
import re
import subprocess
import sys
import tempfile
import os

DRIVER = r"""
#include <stdio.h>
static void shown_number(long long n, int width) {
    printf(" = %lld\n", width == 64 ? n : (long long)((unsigned long long)n << (64 - width)) >> (64 - width));
}
#define ANSWER(x) _Generic((x), _Bool: printf(" = %s\n", (x) ? "true" : "false"), default: 0)
"""


def main(source, calls):
    lines = []
    for call in open(calls):
        call = re.sub(r" turns \d+$", "", call.strip())
        if not call or call.startswith(";"):
            continue
        name, args = re.fullmatch(r"@(\w+)\((.*)\)", call).groups()
        values = [arg.split(" ") for arg in args.split(", ")] if args else []
        shown = ", ".join(value for _, value in values)
        given = ", ".join({"true": "1", "false": "0"}.get(value, f"({value}ll)" if value != "-9223372036854775808" else "(-9223372036854775807ll - 1)") for _, value in values)
        lines.append(f'    printf("%s", "@{name}({shown})");')
        lines.append(f"    {{ __typeof__({name}({given})) r = {name}({given});")
        lines.append('      if (_Generic(r, _Bool: 1, default: 0)) printf(" = %s\\n", r ? "true" : "false");')
        lines.append("      else shown_number((long long)r, 8 * (int)sizeof r); }")
    body = "\n".join(lines)
    # Each call begins with the first memory, so each runs in a process of its own.
    head = '#include "' + os.path.abspath(source) + '"\n' + DRIVER
    blocks = body.split('    printf("%s", ')[1:]
    text = head + "#include <unistd.h>\n#include <sys/wait.h>\nint main(void) {\n"
    for block in blocks:
        text += "    fflush(stdout);\n    if (fork() == 0) {\n    printf(\"%s\", " + block + "\n    fflush(stdout);\n    _exit(0); }\n    wait(0);\n"
    text += "    return 0;\n}\n"
    with tempfile.TemporaryDirectory() as folder:
        path = os.path.join(folder, "driver.c")
        open(path, "w").write(text)
        program = os.path.join(folder, "driver")
        flags = ["-funsigned-char", "-w", "-O0", "-fsanitize=undefined", "-fno-sanitize-recover"]
        subprocess.run(["gcc", *flags, path, "-o", program], check=True)
        told = subprocess.run([program], check=True, capture_output=True, text=True).stdout
        if told.count("\n") != len(blocks):
            sys.exit(f"{source}: a call stopped\n{told}")
        print(told, end="")


main(*sys.argv[1:])

"""The answers to odd.calls, by Python's numbers. A number of a width is kept as its signed one."""
import re


def signed(n, width):
    n %= 1 << width
    return n - (1 << width) if n >> (width - 1) else n


def unsigned(n, width):
    return n % (1 << width)


def truncated(a, b):
    q = abs(a) // abs(b)
    return q if (a < 0) == (b < 0) else -q


def counted(start, step, times):
    return signed(start + step * unsigned(times, 33), 5)


def mixed(a, b, c):
    q = unsigned(a * b, 33) >> 3
    h = signed(c ^ unsigned(b, 7), 33) >> 5
    return signed(q - h, 33)


def quotients(a, b):
    if b == 0:
        return -1
    q = truncated(a, b)
    r = a - q * b
    u, v = divmod(unsigned(a, 63), unsigned(b, 63))
    return signed(q * 3 + r + (u ^ v), 63)


def named(a):
    return {0: 10, -64: 20, 63: 30, -1: 40}.get(a, a >> 1)


def both(a, b, c):
    first, second = (a + b) % 2, b * c
    return (first == 1 and second == 0) if c else first == 1


def bounded(a, b):
    low = signed(min(unsigned(a, 17), unsigned(b, 17)), 17)
    return signed(abs(signed(max(a, b) - low, 17)), 17)


def through(n):
    x = 7
    for k in range(1, n + 1):
        x = signed(x * 3 + k, 12)
    return x


for line in open("odd.calls"):
    name, args = re.fullmatch(r"@(\w+)\((.*)\)\n", line).groups()
    values = [arg.split(" ")[1] for arg in args.split(", ")]
    numbers = [{"true": 1, "false": 0}[value] if value in ("true", "false") else int(value) for value in values]
    answer = globals()[name](*numbers)
    print(f"@{name}({', '.join(values)}) = {str(bool(answer)).lower() if name == 'both' else answer}")

"""A module whose blocks tell the units that they cost: a text in the form that clang writes, with a call at the head of each block.

The units of an instruction: 1, and 1 more for each argument of a call, each index of a `getelementptr` and each case of a `switch`; a memory built-in
costs 1 more for each byte that it moves, and the entry of a function 2. Calls that the reader drops cost nothing.
"""

import re

TOLD = "units.of.a.block"
DROPPED = re.compile(r"call void @llvm\.(lifetime\.|dbg\.|assume|experimental\.noalias\.scope\.decl)")
MOVES = re.compile(r"call void @llvm\.mem(cpy|move|set)\.")


def parts(text):
    """Returns the parts of a text between its commas, but for those within brackets."""
    found, depth, start = [], 0, 0
    for at, letter in enumerate(text):
        depth += (letter in "([{<") - (letter in ")]}>")
        if letter == "," and depth == 0:
            found.append(text[start:at])
            start = at + 1
    return [it.strip() for it in [*found, text[start:]] if it.strip()]


def within(text, start):
    """Returns what stands in the parentheses that open behind a place."""
    start, depth = text.index("(", start), 0
    for at in range(start, len(text)):
        depth += (text[at] == "(") - (text[at] == ")")
        if depth == 0:
            return text[start + 1 : at]
    return ""


def units(line):
    """Returns what an instruction costs, without its bytes and cases."""
    if DROPPED.search(line):
        return 0
    done = line.split(" = ", 1)[-1].strip()
    if re.match(r"(?:(?:tail|notail) )?call\b", done):
        return 1 + len(parts(within(done, done.index("@"))))
    if done.startswith("getelementptr"):
        return 1 + sum(bool(re.match(r"i\d+ ", it)) for it in parts(done)[2:])
    return 1


class Block:
    """The lines of a block, and what it costs."""

    def __init__(self, entry):
        self.phis, self.rest, self.units = [], [], entry

    def add(self, line):
        self.units += units(line)
        if MOVES.search(line):
            # (the length is a number or has 64 bits, as clang writes it for this machine)
            size = parts(within(line, line.index("@")))[2].split(" ")[-1]
            self.rest.append(f"  call void @{TOLD}(i64 {size})")
        (self.phis if " = phi " in line else self.rest).append(line)

    def is_empty(self):
        return not self.phis and not self.rest

    def lines(self):
        return [] if self.is_empty() else [*self.phis, f"  call void @{TOLD}(i64 {self.units})", *self.rest]


def telling(text):
    """Returns the text of the module that tells its units."""
    found, block = [], None
    for line in text.splitlines():
        if line.startswith("define"):
            found.append(line)
            block = Block(2)
        elif block is None:
            found.append(line)
        elif line.startswith("}") or re.match(r'[\w.$"-]+:', line):
            found += [*block.lines(), line]
            # (the entry's units go over to the block that its label begins)
            block = None if line.startswith("}") else Block(block.units if block.is_empty() else 0)
        elif re.match(r"    i\d+ .*, label %", line):
            block.units += 1
            block.rest.append(line)
        elif re.match(r"  [%a-z]", line) and not line.startswith("  ]"):
            block.add(line)
        elif line.strip() and not line.startswith(";") and not line.strip().startswith("#dbg_"):
            block.rest.append(line)
    return "\n".join([*found, f"define void @{TOLD}(i64 %units) {{", "  ret void", "}", ""])

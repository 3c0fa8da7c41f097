#!/usr/bin/env python3
"""Writes `stdin` and `stdout` of this crate: tasks at the ends of every range, and what they must print.

The instructions are worked out here from the tables of the RISC-V Unprivileged ISA, apart from the crates that are tested:
words from their formats, results over Python's whole numbers, calls by an interpreter of its own.
Usage: rows.py, in the crate's folder.
"""

MASK = 2**64 - 1
NAMES = ("x0 ra sp gp tp t0 t1 t2 s0 s1 a0 a1 a2 a3 a4 a5 a6 a7 s2 s3 s4 s5 s6 s7 s8 s9 s10 s11 t3 t4 t5 t6").split()
REG = {name: number for number, name in enumerate(NAMES)}
PC = 0x1000000

BRANCHES = {"beq": 0, "bne": 1, "blt": 4, "bge": 5, "bltu": 6, "bgeu": 7}
LOADS = {"lb": 0, "lh": 1, "lw": 2, "ld": 3, "lbu": 4, "lhu": 5, "lwu": 6}
STORES = {"sb": 0, "sh": 1, "sw": 2, "sd": 3}
NUMBERS = {"addi": 0, "slti": 2, "sltiu": 3, "xori": 4, "ori": 6, "andi": 7}
SHIFTS = {"slli": (0x13, 1, 0), "srli": (0x13, 5, 0), "srai": (0x13, 5, 0x400), "slliw": (0x1B, 1, 0), "srliw": (0x1B, 5, 0), "sraiw": (0x1B, 5, 0x400)}
OPS = {
    "add": (0x33, 0, 0), "sub": (0x33, 0, 32), "sll": (0x33, 1, 0), "slt": (0x33, 2, 0), "sltu": (0x33, 3, 0), "xor": (0x33, 4, 0),
    "srl": (0x33, 5, 0), "sra": (0x33, 5, 32), "or": (0x33, 6, 0), "and": (0x33, 7, 0), "mul": (0x33, 0, 1), "mulh": (0x33, 1, 1),
    "mulhsu": (0x33, 2, 1), "mulhu": (0x33, 3, 1), "div": (0x33, 4, 1), "divu": (0x33, 5, 1), "rem": (0x33, 6, 1), "remu": (0x33, 7, 1),
    "addw": (0x3B, 0, 0), "subw": (0x3B, 0, 32), "sllw": (0x3B, 1, 0), "srlw": (0x3B, 5, 0), "sraw": (0x3B, 5, 32), "mulw": (0x3B, 0, 1),
    "divw": (0x3B, 4, 1), "divuw": (0x3B, 5, 1), "remw": (0x3B, 6, 1), "remuw": (0x3B, 7, 1),
}  # fmt: skip


def bits(number, high, low):
    return (number >> low) & ((1 << (high - low + 1)) - 1)


def signed(number, width):
    number &= (1 << width) - 1
    return number - (1 << width) if number >> (width - 1) else number


def encode(instr):
    """The word of an instruction, a tuple of its name and its operands in the order of a listing."""
    name, *o = instr
    if name in ("lui", "auipc"):
        return o[1] << 12 | o[0] << 7 | {"lui": 0x37, "auipc": 0x17}[name]
    if name == "jal":
        z = o[1]
        return bits(z, 20, 20) << 31 | bits(z, 10, 1) << 21 | bits(z, 11, 11) << 20 | bits(z, 19, 12) << 12 | o[0] << 7 | 0x6F
    if name == "jalr":
        return bits(o[2], 11, 0) << 20 | o[1] << 15 | o[0] << 7 | 0x67
    if name in BRANCHES:
        rs1, rs2, z = o
        word = bits(z, 12, 12) << 31 | bits(z, 10, 5) << 25 | rs2 << 20 | rs1 << 15
        return word | BRANCHES[name] << 12 | bits(z, 4, 1) << 8 | bits(z, 11, 11) << 7 | 0x63
    if name in LOADS:
        return bits(o[2], 11, 0) << 20 | o[1] << 15 | LOADS[name] << 12 | o[0] << 7 | 0x03
    if name in STORES:
        return bits(o[2], 11, 5) << 25 | o[0] << 20 | o[1] << 15 | STORES[name] << 12 | bits(o[2], 4, 0) << 7 | 0x23
    if name in NUMBERS:
        return bits(o[2], 11, 0) << 20 | o[1] << 15 | NUMBERS[name] << 12 | o[0] << 7 | 0x13
    if name == "addiw":
        return bits(o[2], 11, 0) << 20 | o[1] << 15 | o[0] << 7 | 0x1B
    if name in SHIFTS:
        opcode, funct3, upper = SHIFTS[name]
        return (upper + o[2]) << 20 | o[1] << 15 | funct3 << 12 | o[0] << 7 | opcode
    if name in OPS:
        opcode, funct3, funct7 = OPS[name]
        return funct7 << 25 | o[2] << 20 | o[1] << 15 | funct3 << 12 | o[0] << 7 | opcode
    return {"fence": 0x0FF0000F, "ecall": 0x73, "ebreak": 0x100073}[name]


def decode(word):
    """The one instruction that a word spells, or None: each row of the tables is compared with the word in turn."""
    rd, rs1, rs2 = bits(word, 11, 7), bits(word, 19, 15), bits(word, 24, 20)
    i = signed(bits(word, 31, 20), 12)
    rows = [("lui", rd, word >> 12), ("auipc", rd, word >> 12), ("jalr", rd, rs1, i), ("addiw", rd, rs1, i)]
    j = bits(word, 31, 31) << 20 | bits(word, 19, 12) << 12 | bits(word, 20, 20) << 11 | bits(word, 30, 21) << 1
    b = bits(word, 31, 31) << 12 | bits(word, 7, 7) << 11 | bits(word, 30, 25) << 5 | bits(word, 11, 8) << 1
    rows.append(("jal", rd, signed(j, 21)))
    rows += [(name, rs1, rs2, signed(b, 13)) for name in BRANCHES]
    rows += [(name, rd, rs1, i) for name in (*LOADS, *NUMBERS)]
    rows += [(name, rs2, rs1, signed(bits(word, 31, 25) << 5 | rd, 12)) for name in STORES]
    rows += [(name, rd, rs1, bits(word, 25, 20)) for name in ("slli", "srli", "srai")]
    rows += [(name, rd, rs1, rs2) for name in ("slliw", "srliw", "sraiw", *OPS)]
    rows += [("fence",), ("ecall",), ("ebreak",)]
    fits = [row for row in rows if encode(row) == word]
    assert len(fits) < 2, fits
    return fits[0] if fits else None


def text(instr):
    name, *o = instr
    if name in ("lui", "auipc"):
        return f"{name} {NAMES[o[0]]},0x{o[1]:x}"
    if name == "jal":
        return f"{name} {NAMES[o[0]]},{o[1]}"
    if name in LOADS or name in STORES or name == "jalr":
        return f"{name} {NAMES[o[0]]},{o[2]}({NAMES[o[1]]})"
    if name in OPS:
        return f"{name} " + ",".join(NAMES[r] for r in o)
    return name + (f" {NAMES[o[0]]},{NAMES[o[1]]},{o[2]}" if o else "")


def quotient(a, b):
    return abs(a) // abs(b) * (1 if (a < 0) == (b < 0) else -1)


def operate(name, a, b):
    """The result of an operation on two registers."""
    if name.endswith("w") and name != "sltw":
        a32, b32, name = a % 2**32, b % 2**32, name[:-1]
        if name in ("div", "rem"):
            x, y = signed(a32, 32), signed(b32, 32)
            value = (-1 if y == 0 else quotient(x, y)) if name == "div" else (x if y == 0 else x - y * quotient(x, y))
        elif name in ("divu", "remu"):
            value = (2**32 - 1 if b32 == 0 else a32 // b32) if name == "divu" else (a32 if b32 == 0 else a32 % b32)
        else:
            shift = b32 % 32
            value = {"add": a32 + b32, "sub": a32 - b32, "mul": a32 * b32, "sll": a32 << shift, "srl": a32 >> shift, "sra": signed(a32, 32) >> shift}[name]
        return signed(value, 32) & MASK
    x, y, shift = signed(a, 64), signed(b, 64), b % 64
    value = {
        "add": lambda: a + b, "sub": lambda: a - b, "sll": lambda: a << shift, "slt": lambda: int(x < y), "sltu": lambda: int(a < b),
        "xor": lambda: a ^ b, "srl": lambda: a >> shift, "sra": lambda: x >> shift, "or": lambda: a | b, "and": lambda: a & b,
        "mul": lambda: a * b, "mulh": lambda: x * y >> 64, "mulhsu": lambda: x * b >> 64, "mulhu": lambda: a * b >> 64,
        "div": lambda: -1 if y == 0 else quotient(x, y), "divu": lambda: MASK if b == 0 else a // b,
        "rem": lambda: x if y == 0 else x - y * quotient(x, y), "remu": lambda: a if b == 0 else a % b,
    }[name]()  # fmt: skip
    return value & MASK


REGISTER_FORM = {"addi": "add", "slti": "slt", "sltiu": "sltu", "xori": "xor", "ori": "or", "andi": "and", "addiw": "addw"}
REGISTER_FORM |= {name: name.replace("i", "", 1) for name in SHIFTS}


def step(x, pc, instr):
    """Does an instruction on the registers x. Answers the next pc and what is asked of the machine."""
    name, *o = instr
    following = (pc + 4) & MASK
    value = rd = asked = None
    if name == "lui":
        rd, value = o[0], signed(o[1] << 12, 32)
    elif name == "auipc":
        rd, value = o[0], pc + signed(o[1] << 12, 32)
    elif name == "jal":
        rd, value, following = o[0], pc + 4, pc + o[1]
    elif name == "jalr":
        rd, value, following = o[0], pc + 4, (x[o[1]] + o[2]) & ~1
    elif name in BRANCHES:
        a, b = x[o[0]], x[o[1]]
        p, q = signed(a, 64), signed(b, 64)
        if {"beq": a == b, "bne": a != b, "blt": p < q, "bge": p >= q, "bltu": a < b, "bgeu": a >= b}[name]:
            following = pc + o[2]
    elif name in LOADS:
        asked = ("load", name, o[0], (x[o[1]] + o[2]) & MASK)
    elif name in STORES:
        asked = ("store", name, x[o[0]], (x[o[1]] + o[2]) & MASK)
    elif name in REGISTER_FORM:
        rd, value = o[0], operate(REGISTER_FORM[name], x[o[1]], o[2] & MASK)
    elif name in OPS:
        rd, value = o[0], operate(name, x[o[1]], x[o[2]])
    elif name == "ecall":
        asked = ("call",)
    elif name == "ebreak":
        following, asked = pc, ("break",)
    if rd:
        x[rd] = value & MASK
    return following & MASK, asked


ROOM = 2097152
DATA, CONTROL, CONTROL_SIZE, EXIT, STUBS, CELLS = 0x10000000, 0x40000000, 0x800000, 0x8000, 0x10000, 0x100000


memory = {}


def call(turns, a0, words):
    """How a call of one function ends, on memory as the last call left it."""
    x = [0] * 32
    x[REG["ra"]], x[REG["sp"]], x[REG["s11"]], x[REG["a0"]] = EXIT, CONTROL + CONTROL_SIZE, DATA, a0
    stub = [encode(("lui", 6, 0x100)), encode(("ld", 6, 6, 0)), encode(("jalr", 0, 6, 0)), encode(("addi", 0, 0, 0))]
    text_words = {STUBS + 4 * i: w for i, w in enumerate(stub)} | {PC + 4 * i: w for i, w in enumerate([1] + words)}
    pc, spent = STUBS, 0
    while pc != EXIT:
        if spent == 256 * turns:
            return f"fuel {spent:x}"
        instr = decode(text_words[pc]) if pc in text_words else None
        if instr is None:
            return f"fault {pc:x}"
        spent += 1
        following, asked = step(x, pc, instr)
        if asked and not serve(x, asked):
            return "stack" if asked == ("call",) and x[5] == 2 else f"fault {pc:x}"
        pc = following
    return f"value {x[10]:x}"


def serve(x, asked):
    if asked == ("call",):
        return x[5] == 1 and x[6] == 0
    if asked == ("break",):
        return False
    kind, name, what, address = asked
    if name == "ld" and address == CELLS:
        x[what] = PC + 4
        return True
    size = 1 << "bhwd".index(name[1])
    if not (DATA <= address and address + size <= DATA + ROOM or CONTROL <= address and address + size <= CONTROL + CONTROL_SIZE):
        return False
    for k in range(size) if kind == "store" else ():
        memory[address + k] = what >> 8 * k & 255
    if kind == "load" and what:
        value = sum(memory.get(address + k, 0) << 8 * k for k in range(size))
        x[what] = value if name.endswith("u") else signed(value, 8 * size) & MASK
    return True


LEAST, GREATEST = 2**63, 2**63 - 1
CORNERS = [0, 1, MASK, LEAST, GREATEST, 2**31 - 1, 2**31, 2**31 + 1, MASK - 2**31 + 1, MASK - 2**31, 2**32 - 1, 2**32]
AMOUNTS = [0, 1, 31, 32, 33, 63, 64, 127, 2**32, MASK]
I_ENDS = [-2048, -1, 0, 1, 2047]
rows = []


def spell(word):
    instr = decode(word)
    rows.append((f"spell {word:08x}", f"{word:08x} {text(instr) if instr else 'word'}"))


def do(instr, a1=0, a2=0):
    x = [number * 0x0101010101010101 for number in range(32)]
    x[11], x[12] = a1, a2
    before = list(x)
    pc, asked = step(x, PC, instr)
    out = "".join(f"{NAMES[r]} {x[r]:x}, " for r in range(32) if x[r] != before[r]) + f"pc {pc:x}"
    if asked and asked[0] == "load":
        out += f", {asked[1].capitalize()} {NAMES[asked[2]]} from {asked[3]:x}"
    elif asked and asked[0] == "store":
        out += f", {asked[1].capitalize()} {asked[2]:x} to {asked[3]:x}"
    elif asked:
        out += f", {asked[0]}"
    rows.append((f"step {encode(instr):08x} {a1:x} {a2:x}", out))


def run(turns, a0, *instrs):
    words = [i if isinstance(i, int) else encode(i) for i in instrs]
    rows.append((" ".join(["call", f"{turns:x}", f"{a0:x}"] + [f"{w:08x}" for w in words]), call(turns, a0, words)))


def spell_rows():
    """Every name, every register in every place, each format's ends and each single bit, and words that spell nothing."""
    for r in range(32):
        for instr in [("add", r, 31 - r, r ^ 5), ("sd", r, 31 - r, r), ("blt", r, r ^ 3, 4 * r), ("jalr", r, r ^ 7, -r), ("lui", r, r), ("jal", r, -2 * r)]:
            spell(encode(instr))
    for name in OPS:
        spell(encode((name, 10, 11, 12)))
    for name in (*NUMBERS, "addiw", *LOADS, "jalr"):
        for z in I_ENDS:
            spell(encode((name, 10, 11, z)))
    for name in SHIFTS:
        for z in [0, 1, 31] + ([] if name.endswith("w") else [32, 63]):
            spell(encode((name, 10, 11, z)))
    for name in STORES:
        for z in I_ENDS + [1 << k for k in range(11)]:
            spell(encode((name, 10, 11, z)))
    for name in BRANCHES:
        for z in [-4096, -2, 0, 4094] + [1 << k for k in range(1, 12)]:
            spell(encode((name, 10, 11, z)))
    for z in [-(2**20), -2, 0, 2**20 - 2] + [1 << k for k in range(1, 20)]:
        spell(encode(("jal", 1, z)))
    for name in ("lui", "auipc"):
        for z in [0, 1, 0x7FFFF, 0x80000, 0xFFFFF]:
            spell(encode((name, 10, z)))
    for name in ("fence", "ecall", "ebreak"):
        spell(encode((name,)))
        for bit in range(32):
            spell(encode((name,)) ^ 1 << bit)
    for opcode in range(128):
        if opcode in (0x03, 0x13, 0x1B, 0x23, 0x33, 0x3B, 0x63, 0x67):
            for funct3 in range(8):
                for funct7 in (0, 1, 2, 16, 31, 32, 33, 64, 127):
                    spell(funct7 << 25 | 12 << 20 | 11 << 15 | funct3 << 12 | 10 << 7 | opcode)
        else:
            spell(12 << 20 | 11 << 15 | 10 << 7 | opcode)
    for word in (0, 0xFFFFFFFF, 0x40151513):
        spell(word)


def step_rows():
    for name in OPS:
        for a in CORNERS:
            for b in AMOUNTS if name.startswith(("sll", "srl", "sra")) else CORNERS:
                do((name, 10, 11, 12), a, b)
    for name in (*NUMBERS, "addiw"):
        for a in CORNERS + [2047, 2048, MASK - 2047]:
            for z in I_ENDS:
                do((name, 10, 11, z), a)
    for name in SHIFTS:
        for a in CORNERS:
            for z in [0, 1, 31] + ([] if name.endswith("w") else [32, 63]):
                do((name, 10, 11, z), a)
    for name in BRANCHES:
        for a in CORNERS:
            for b in CORNERS:
                do((name, 11, 12, -4), a, b)
        do((name, 11, 11, -4096), 7)
        do((name, 11, 12, 4094), 1, 2)
        do((name, 12, 11, 4094), 1, 2)
    for name in (*LOADS, *STORES, "jalr"):
        for a in (0, 1, 2047, 2048, GREATEST, LEAST, MASK):
            for z in I_ENDS:
                do((name, 12, 11, z), a, 2**32 + 3)
    for z in (-(2**20), -2, 0, 2, 4, 2**20 - 2):
        do(("jal", 1, z))
    for name in ("lui", "auipc"):
        for z in (0, 1, 0x7FFFF, 0x80000, 0xFFFFF):
            do((name, 10, z))
    # the register that is written is read before, and x0 is never written
    for instr in [("jalr", 11, 11, 4), ("add", 11, 11, 11), ("mulhu", 12, 12, 11), ("addi", 11, 11, -1), ("sraiw", 11, 11, 3)]:
        do(instr, LEAST + 8, 5)
    for instr in [("lui", 0, 1), ("auipc", 0, 1), ("jal", 0, 8), ("jalr", 0, 11, 3), ("addi", 0, 11, 5), ("add", 0, 11, 12), ("divw", 0, 11, 0), ("sub", 10, 0, 11)]:
        do(instr, 9, 7)
    for instr in (("fence",), ("ecall",), ("ebreak",)):
        do(instr)


RET = ("jalr", 0, 1, 0)
NOP = ("addi", 0, 0, 0)


def constant(rd, value):
    """Instructions that load a number of 32 bits, with zeros above it."""
    high = (value + 2048 >> 12) & 0xFFFFF
    return [("lui", rd, high), ("addiw", rd, rd, signed(value, 12)), ("slli", rd, rd, 32), ("srli", rd, rd, 32)]


def call_rows():
    """Rules of the end in their order, and the edges of every region."""
    run(1, 5, ("ebreak",))
    run(1, 5, ("jal", 0, 0))
    run(1, 5, RET)
    run(1, MASK, RET)
    run(0, 5, RET)
    run(2, 5, ("jal", 0, 0))
    # the exit is tested before the fuel, and the fuel before a fault
    run(1, 5, *[NOP] * 252, RET)
    run(1, 5, *[NOP] * 253, RET)
    run(1, 5, *[NOP] * 252, ("ebreak",))
    run(1, 5, *[NOP] * 253, ("ebreak",))
    run(1, 5, *[NOP] * 252, ("jalr", 0, 0, 0))
    run(1, 5, *[NOP] * 253, 0)
    # every register at the start
    for r in range(32):
        run(1, 77, ("addi", 10, r, 0), RET)
    # where no instruction stands
    for place in (0, 2, EXIT - 4, EXIT, EXIT + 1, EXIT + 2, EXIT + 4, STUBS - 4, STUBS + 2, STUBS + 16, CELLS, PC - 4, PC, PC + 2, PC + 24, PC + 28, DATA, CONTROL):
        run(1, 5, *constant(5, place), ("jalr", 7, 5, 0))
    run(1, 5, ("addi", 5, 0, -4), ("jalr", 0, 5, 0))
    run(1, 5, 0)
    run(1, 5, 0xFFFFFFFF)
    run(1, 5, NOP)
    run(1, 5)
    # a stub's later instructions, and the call by itself through its stub
    run(1, 5, ("lui", 5, 0x10), ("bne", 6, 0, 8), RET, ("addi", 6, 0, 0), ("jalr", 0, 5, 12))
    run(1, 2, ("bne", 10, 0, 8), RET, ("addi", 10, 10, -1), ("lui", 5, 0x10), ("jalr", 0, 5, 0))
    run(1, 5, ("lui", 5, 0x10), ("jalr", 0, 5, 8))
    # counts and ends by ecall
    for t0, t1 in [(1, 0), (1, 1), (2, 0), (2, 9), (0, 0), (3, 0), (1, -1)]:
        run(1, 5, ("addi", 5, 0, t0), ("addi", 6, 0, t1), ("ecall",), RET)
    run(1, 5, ("addi", 5, 0, 1), ("slli", 6, 5, 32), ("ecall",), RET)
    run(1, 5, ("addi", 5, 0, 1), ("slli", 5, 5, 32), ("addi", 5, 5, 1), ("addi", 6, 0, 0), ("ecall",), RET)
    run(1, 5, ("fence",), RET)
    # the edges of data memory, the control stack and the cells, from five bytes before to five behind
    edges = [DATA, DATA + ROOM, CONTROL, CONTROL + CONTROL_SIZE]
    for name in LOADS:
        for edge in edges + [CELLS, CELLS + 8, STUBS, PC]:
            for z in (-8, -7, -4, -3, -2, -1, 0, 1, 4):
                run(1, 5, *constant(5, edge), (name, 10, 5, z), RET)
    for name in STORES:
        for edge in edges + [CELLS, CELLS + 8, STUBS, PC]:
            for z in (-8, -7, -4, -3, -2, -1, 0, 1):
                run(1, 0x8182838485868788, *constant(5, edge), (name, 10, 5, z), ("ld", 10, 5, -8 if edge in edges[1::2] else 0), RET)
    for name in (*LOADS, *STORES):
        run(1, 5, ("addi", 5, 0, -1), (name, 10, 5, 0), RET)
        run(1, 5, *constant(5, DATA), ("slli", 6, 5, 32), ("add", 5, 5, 6), (name, 10, 5, 0), RET)
    # what is stored is loaded, signed and unsigned, at every alignment; a load into x0 is made and writes nothing
    for name in LOADS:
        for z in range(8):
            run(1, 0x8182838485868788, ("sd", 10, 2, -16), ("sd", 10, 2, -8), (name, 10, 2, z - 16), RET)
        run(1, 0x7FFFFFFF7FFF7F7F, ("sd", 10, 27, 8), (name, 10, 27, 8), RET)
        run(1, 5, (name, 0, 2, -8), RET)
        run(1, 5, (name, 0, 2, 0), RET)
    for name in STORES:
        run(1, 0x8182838485868788, ("xori", 5, 10, -1), ("sd", 10, 27, 0), ("sd", 10, 27, 8), (name, 5, 27, 5), ("ld", 10, 27, 0), RET)
        run(1, 0x8182838485868788, ("xori", 5, 10, -1), ("sd", 10, 27, 0), ("sd", 10, 27, 8), (name, 5, 27, 5), ("ld", 10, 27, 8), RET)


if __name__ == "__main__":
    spell_rows()
    step_rows()
    call_rows()
    rows = list(dict(rows).items())
    for name, column in (("stdin", 0), ("stdout", 1)):
        with open(name, "w", encoding="ascii") as file:
            file.writelines(row[column] + "\n" for row in rows)
    print(len(rows), "rows")

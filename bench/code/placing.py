"""Places an object file of RISC-V as a linker does: code and data at the addresses of the machine, calls within reach made into one `jal`."""

import bisect
import struct

BUILT_INS, CODE, DATA = 0xFFFF00, 0x1000000, 0x10000000
ROUTINES = {"memcpy": BUILT_INS, "memmove": BUILT_INS + 4, "memset": BUILT_INS + 8}
# Relocations, by the ELF psABI of RISC-V.
WORD, DOUBLE, BRANCH, JAL, CALL, CALL_PLT, HIGH, LOW_I, LOW_S, RELAX = 1, 2, 16, 17, 18, 19, 26, 27, 28, 51


class NotPlaced(Exception):
    """What in an object can't be placed."""


def high(value):
    return (value + 0x800) & 0xFFFFF000


def with_i(word, value):
    return word & 0xFFFFF | (value & 0xFFF) << 20


def with_s(word, value):
    return word & 0x1FFF07F | (value >> 5 & 0x7F) << 25 | (value & 0x1F) << 7


def with_b(word, value):
    return word & 0x1FFF07F | (value >> 12 & 1) << 31 | (value >> 5 & 0x3F) << 25 | (value >> 1 & 0xF) << 8 | (value >> 11 & 1) << 7


def with_j(word, value):
    return word & 0xFFF | (value >> 20 & 1) << 31 | (value >> 1 & 0x3FF) << 21 | (value >> 11 & 1) << 20 | (value >> 12 & 0xFF) << 12


def signed(value, bits):
    return (value & (1 << bits) - 1) - (value << 1 & 1 << bits)


def offset_b(word):
    return signed((word >> 31) << 12 | (word >> 7 & 1) << 11 | (word >> 25 & 63) << 5 | (word >> 8 & 15) << 1, 13)


def offset_j(word):
    return signed((word >> 31) << 20 | (word >> 12 & 255) << 12 | (word >> 20 & 1) << 11 | (word >> 21 & 1023) << 1, 21)


class Section:
    """A section of an object: its header, its bytes, and where it is placed."""

    def __init__(self, header, file):
        self.name, self.kind, self.flags, _, self.offset, self.size, self.link, self.info, self.align, _ = header
        self.bytes = bytearray(self.size if self.kind == 8 else file[self.offset : self.offset + self.size])
        self.address, self.dropped = None, []

    def is_code(self):
        return bool(self.flags & 4)

    def moved(self, offset):
        """Where in the placed section an offset of the object is."""
        return offset - 4 * bisect.bisect_left(self.dropped, offset)


class Object:
    """An object file, placed."""

    def __init__(self, path):
        with open(path, "rb") as file:
            self.file = file.read()
        if self.file[:6] != b"\x7fELF\x02\x01" or struct.unpack_from("<H", self.file, 18)[0] != 243:
            raise NotPlaced("no object of RISC-V")
        at, (size, count, names) = struct.unpack_from("<Q", self.file, 40)[0], struct.unpack_from("<HHH", self.file, 58)
        self.sections = [Section(struct.unpack_from("<IIQQQQIIQQ", self.file, at + size * it), self.file) for it in range(count)]
        for section in self.sections:
            section.name = self.text(self.sections[names], section.name)
        self.symbols = self.symbols_read()
        self.relocations = {it.info: self.relocations_of(it) for it in self.sections if it.kind == 4}
        self.placed = [it for it in self.sections if it.flags & 2 and it.size and it.name != ".eh_frame"]
        self.place()
        for section in self.placed:
            for relocation in self.relocations.get(self.sections.index(section), []):
                self.relocate(section, *relocation)

    @staticmethod
    def text(section, at):
        return section.bytes[at : section.bytes.index(0, at)].decode()

    def symbols_read(self):
        """Returns each symbol's name, section and value."""
        table = next(it for it in self.sections if it.kind == 2)
        found = (struct.unpack_from("<IBBHQQ", table.bytes, at) for at in range(0, table.size, 24))
        return [(self.text(self.sections[table.link], name), section, value) for name, _, _, section, value, _ in found]

    def relocations_of(self, section):
        """Returns each relocation's offset, kind, symbol and addend."""
        found = (struct.unpack_from("<QIIq", section.bytes, at) for at in range(0, section.size, 24))
        return [(offset, kind, symbol, addend) for offset, kind, symbol, addend in found]

    def place(self):
        """Gives each section its address, and finds the second words of calls, which aren't needed."""
        ends = {True: CODE, False: DATA}
        for section in self.placed:
            relocations = self.relocations.get(self.sections.index(section), [])
            section.dropped = sorted(it[0] + 4 for it in relocations if it[1] in (CALL, CALL_PLT))
            start = -(-ends[section.is_code()] // max(section.align, 1)) * max(section.align, 1)
            section.address, ends[section.is_code()] = start, start + section.size - 4 * len(section.dropped)
            if section.is_code():
                self.name_branches(section, relocations)
        self.top = -(-ends[False] // 16) * 16

    def name_branches(self, section, relocations):
        """Jumps within a section that the assembler has settled are settled again, since words between may be dropped."""
        named, own = {it[0] for it in relocations}, self.sections.index(section)
        for at in range(0, section.size, 4):
            word = struct.unpack_from("<I", section.bytes, at)[0]
            if at not in named and word & 127 in (0x63, 0x6F):
                target = at + (offset_b(word) if word & 127 == 0x63 else offset_j(word))
                self.symbols.append(("", own, target))
                self.relocations.setdefault(own, []).append((at, BRANCH if word & 127 == 0x63 else JAL, len(self.symbols) - 1, 0))

    def address(self, symbol):
        name, section, value = self.symbols[symbol]
        if section == 0 and name in ROUTINES:
            return ROUTINES[name]
        if not 0 < section < len(self.sections) or self.sections[section].address is None:
            raise NotPlaced(f"{name or 'a symbol'} is not in the object")
        return self.sections[section].address + self.sections[section].moved(value)

    def relocate(self, section, offset, kind, symbol, addend):
        if kind == RELAX:
            return
        value, (word,) = self.address(symbol) + addend, struct.unpack_from("<I", section.bytes, offset)
        away = value - (section.address + section.moved(offset))
        if kind == DOUBLE:
            return struct.pack_into("<Q", section.bytes, offset, value)
        if kind in (CALL, CALL_PLT, JAL) and not -(1 << 20) <= away < 1 << 20:
            raise NotPlaced(f"a call over {away} bytes")
        if kind in (CALL, CALL_PLT):
            word = with_j(0x6F | struct.unpack_from("<I", section.bytes, offset + 4)[0] & 0xF80, away)
        elif kind == HIGH:
            word = word & 0xFFF | high(value)
        else:
            forms = {WORD: lambda: value, BRANCH: lambda: with_b(word, away), JAL: lambda: with_j(word, away),
                     LOW_I: lambda: with_i(word, value), LOW_S: lambda: with_s(word, value)}
            if kind not in forms:
                raise NotPlaced(f"relocation {kind} in {section.name}")
            word = forms[kind]()
        return struct.pack_into("<I", section.bytes, offset, word)

    def words(self):
        """Returns the words of the code."""
        found = []
        for section in (it for it in self.placed if it.is_code()):
            found += [0] * ((section.address - CODE) // 4 - len(found))
            dropped = set(section.dropped)
            found += [struct.unpack_from("<I", section.bytes, at)[0] for at in range(0, section.size, 4) if at not in dropped]
        return found

    def image(self):
        """Returns the bytes of data memory."""
        found = bytearray(self.top - DATA)
        for section in (it for it in self.placed if not it.is_code()):
            found[section.address - DATA : section.address - DATA + section.size] = section.bytes
        return bytes(found)

    def functions(self):
        """Returns where each symbol of the code begins."""
        return {name: self.address(at) for at, (name, section, _) in enumerate(self.symbols)
                if name and 0 < section < len(self.sections) and self.sections[section] in self.placed and self.sections[section].is_code()}

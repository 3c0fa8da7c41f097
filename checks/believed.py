#!/usr/bin/env python3
"""Lists what has to be believed of the program: the definitions that the contract of jit_main::reopt hangs on.

    checks/believed.py            the list, by crate and file, in the order of crates.txt, each with its line of comment
    checks/believed.py --count    how many there are
    checks/believed.py --mark     puts the names of docs/DEFINITIONS.md that are among them in bold
    checks/believed.py --check    whether they are so; this is what checks/run asks

It begins with the names in the clauses of `reopt` and `serial` and goes on with those in each definition that it comes to, through the imports of its
file. What isn't in the list can be wrong without making the contract say less: lemmas, loop invariants, the definitions of crates that only proofs cite.
"""

import glob
import os
import re
import sys

sys.path.insert(0, os.path.dirname(os.path.realpath(__file__)))
sys.dont_write_bytecode = True
from rules import House, alternatives, found_at  # noqa: E402

TOP = os.path.dirname(os.path.dirname(os.path.realpath(__file__)))
PAGE = f"{TOP}/docs/DEFINITIONS.md"
TOPS = (("jit_main", "src/top.rt", ("reopt", "serial")),)
NAME = r"[A-Za-z_◌][^\s(){}\[\],;.:`]*"
HEADER = re.compile(rf"^( *)(?:((?:(?:abbrev|unfoldable|data|record|ruleset|pub) +)+)({NAME})|({NAME}) :)(?=\s)")
IMPORT = re.compile(r"^ *(?:pub )?(?:ghost )?(?:pub )?use Rattle\.(\w+)\.specs\.([\w.]+?)(?:\.\{([^}]*)\}| as (\w+))?;?\s*$", re.M)
SYMBOL = re.compile(r"◌([^\s◌A-Za-z0-9]+)◌")


class Page:
    """A file of specs: its definitions, each with its text and comment, and its imports."""

    def __init__(self, crate, module, path):
        self.crate, self.module, self.path = crate, module, path
        with open(path, encoding="utf-8") as file:
            self.text = file.read()
        self.items, self.comments = {}, {}
        self.imports, self.as_modules = imports(self.text)
        self.read()

    def read(self):
        now, comment, indent = None, [], 0
        for line in self.text.splitlines():
            found = HEADER.match(line)
            if re.match(r" *(pub )?module .*where$", line):
                now, indent = None, 0
            marked = found and (found[2] or not found[1])
            if line.strip().startswith("--"):
                comment.append(line.strip().lstrip("- "))
                continue
            if not line.strip():
                comment = []
                continue
            if marked and (now is None or len(found[1]) <= indent) and (found[3] or found[4]) != now:
                now, indent = found[3] or found[4], len(found[1])
                self.items.setdefault(now, "")
                self.comments.setdefault(now, " ".join(comment))
            comment = []
            if now is not None and not re.match(r" *(pub )?(use|mod|module) ", line):
                self.items[now] += f"{line}\n"


def imports(text):
    """Returns what a file imports: by the name that it has there, the crate, module and name where it stands; and modules by their short names."""
    names, modules = {}, {}
    for crate, module, listed, short in IMPORT.findall(text):
        for part in listed.split(",") if listed else []:
            was, _, now = part.strip().partition(" as ")
            names[now.strip() or was.strip()] = (crate, module, was.strip())
        if not listed:
            modules[short or module.split(".")[-1]] = (crate, module)
    return names, modules


class Specs:
    """All files of specs, by crate and module."""

    def __init__(self):
        self.pages = {}
        for path in sorted(glob.glob(f"{TOP}/crates/*/specs/**/*.antt", recursive=True)):
            crate, inside = re.match(rf"{re.escape(TOP)}/crates/(\w+)/specs/(.*)\.antt$", path).groups()
            self.pages[crate, inside.replace("/", ".")] = Page(crate, inside.replace("/", "."), path)
        self.found, self.outside, self.types = {}, set(), set()

    def resolve(self, crate, module, name, depth=0):
        """Comes to a name of a module: a definition, a type of the code, or a word of a library."""
        if "declared." in module:
            self.types.add((crate, re.sub(r".*\.declared\.|^declared\.|\.TheVariants$", "", module).split(".")[-1]))
            return
        page = self.pages.get((crate, module))
        if page is None:
            if not os.path.isdir(f"{TOP}/crates/{crate}"):
                self.outside.add((crate, name))
            return
        if name in page.items:
            self.follow(page, name)
        elif name in page.imports and depth < 8:
            self.resolve(*page.imports[name], depth + 1)

    def follow(self, page, name):
        if (page.crate, page.module, name) in self.found:
            return
        self.found[page.crate, page.module, name] = page
        self.names_of(page.items[name], page.imports, page.as_modules, page)

    def names_of(self, text, names, modules, page=None):
        """Comes to each name of a text, by what stands in its file."""
        text = re.sub(r'"(?:[^"\\]|\\.)*"', "", text)
        for short, _, inside in re.findall(rf"\b(\w+)(\.)({NAME})", text):
            if short in modules:
                self.resolve(*modules[short], inside)
        for name in dict.fromkeys(re.findall(NAME, text)):
            if page is not None and name in page.items:
                self.follow(page, name)
            elif name in names:
                self.resolve(*names[name])
        marks = set(re.findall(r"[^\s\w(){}\[\],;.:`\"']+", text))
        for name in names:
            if "◌" in name and any(it in marks for it in SYMBOL.findall(name) or [name.strip("◌")]):
                self.resolve(*names[name])


def clauses(text, function):
    """Returns the clauses of a function: its text from its name to its body."""
    start = re.search(rf"^pub fn {function}\b", text, re.M).start()
    head = text[start : text.index("\n{\n", start)]
    return "\n".join(re.findall(r"(?:ensures|requires)[^{]*\{(.*?)\}\s*$", head, re.M | re.S) and [head[re.search(r"ensures|requires", head).start() :]])


def believed():
    specs = Specs()
    sys.setrecursionlimit(20000)
    for crate, path, functions in TOPS:
        with open(f"{TOP}/crates/{crate}/{path}", encoding="utf-8") as file:
            text = file.read()
        names, modules = imports(text)
        for function in functions:
            specs.names_of(clauses(text, function), names, modules)
    return specs


def marked(specs):
    """Returns docs/DEFINITIONS.md with the names of the list in bold, and no others."""
    house, lines = House(TOP), []
    with open(PAGE, encoding="utf-8") as file:
        text = file.read()
    for line in text.split("\n"):
        cells = re.split(r"(?<!\\)\|", line)
        if len(cells) >= 5 and "`" in cells[1]:
            files, folder = set(), ""
            for part in re.split(r", (?![^{]*\})", cells[2].strip().replace("`", "")):
                for path in alternatives(part):
                    files |= {os.path.realpath(it) for it in found_at(house, path, ["crates/", f"crates/{folder}/"])}
                    folder = os.path.dirname(path) if path.count("/") > 1 else folder or path

            def bold(found):
                inside = [page for (_, _, name), page in specs.found.items() if name == found[1]]
                is_believed = any(os.path.realpath(it.path) in files or os.path.realpath(os.path.dirname(it.path)) in files for it in inside)
                return f"**`{found[1]}`**" if is_believed else f"`{found[1]}`"

            cells[1] = re.sub(r"`([^`]+)`", bold, cells[1].replace("**", ""))
            line = "|".join(cells)
        lines.append(line)
    return text, "\n".join(lines)


def counted(specs):
    whole = sum(len(it.items) for it in specs.pages.values())
    crates = {it[0] for it in specs.found}
    lines = sum(page.items[name].count("\n") for (_, _, name), page in specs.found.items())
    return f"{len(specs.found)} of {whole} definitions, {lines} lines in {len({it[:2] for it in specs.found})} files of {len(crates)} crates, over {len(specs.types)} types of the code and {len(specs.outside)} words of libraries"


def main(words):
    specs = believed()
    if words == ["--count"]:
        print(counted(specs))
    elif words in (["--mark"], ["--check"]):
        now, wanted = marked(specs)
        if words == ["--mark"]:
            with open(PAGE, "w", encoding="utf-8") as file:
                file.write(wanted)
        elif now != wanted:
            print("believed: docs/DEFINITIONS.md marks other names than the contract hangs on: checks/believed.py --mark")
            return 1
        print(f"believed: {counted(specs)}")
    elif words:
        print(__doc__, end="")
        return 0 if words[0] in ("-h", "--help") else 2
    else:
        order = {crate: at for at, crate in enumerate(House(TOP).crates)}
        last = None
        for (crate, module, name), page in sorted(specs.found.items(), key=lambda it: (order.get(it[0][0], 0), it[0])):
            if last != (crate, module):
                print(f"\n{crate}/specs/{module.replace('.', '/')}")
                last = crate, module
            print(f"    {name}{'  ' + page.comments[name] if page.comments.get(name) else ''}")
        print_rest(specs)
        print(f"\n{counted(specs)}")
    return 0


def print_rest(specs):
    """Prints the types of the code and the words of libraries that the definitions speak of."""
    for title, found in (("Types of the code", specs.types), ("Words of libraries", specs.outside)):
        print(f"\n{title}")
        for crate in sorted({it[0] for it in found}):
            print(f"    {crate}: {' '.join(sorted(name for where, name in found if where == crate))}")


if __name__ == "__main__":
    sys.exit(main(sys.argv[1:]))

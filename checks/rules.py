#!/usr/bin/env python3
"""Keeps the rules of the house: what the gate costs, how crates stand together, and that documents name what is there.

    checks/rules.py [FOLDER]     the repository, or the one in FOLDER

It reads files alone and takes a second or two. Each line that it prints is one breach; the status is 1 where there is any. What is allowed beyond a
rule stands in checks/allowed.txt, a line each with its reason.
"""

import glob
import os
import re
import subprocess
import sys

MOST_EDITS, MOST_CRATES_WITH_EDITS, MOST_LINES, MOST_FUNCTIONS, MOST_FUNCTIONS_BESIDE_TESTS = 4, 30, 800, 100, 30
# Files whose lines are counted: what people write. Tables of tests and texts of other programs aren't.
WRITTEN = (".rt", ".antt", ".py", ".sh", ".md", ".c", ".s")
WORD = r"[A-Za-z_][\w'-]*"


class House:
    """The files of a repository, and what is found to break its rules."""

    def __init__(self, top):
        self.top, self.found = top, []
        self.files = sorted(
            os.path.relpath(f"{at}/{name}", top)
            for at, folders, names in os.walk(top)
            if not folders.sort()
            for name in names
            if not re.search(r"/(\.git|out|__pycache__)(/|$)", at[len(top) :] + "/")
        )
        self.lines, self.headings = self.crates_listed()
        self.crates = [it[0] for it in self.lines]
        self.allowed = self.allowances()

    def breach(self, line):
        self.found.append(line)

    def text(self, path):
        with open(f"{self.top}/{path}", encoding="utf-8", errors="replace") as file:
            return file.read()

    def is_there(self, path):
        return os.path.lexists(f"{self.top}/{path}")

    def crates_listed(self):
        """Returns the crates of crates.txt in order, each with the heading above it, and the headings."""
        crates, headings, heading = [], [], ""
        for line in self.text("crates.txt").splitlines() if self.is_there("crates.txt") else []:
            said = line.split("#")[0].strip()
            if re.match(r"# [A-Z][A-Za-z ]*$", line):
                heading = line[2:]
                headings.append(heading)
            elif said:
                crates.append((said.partition(":")[0].split()[0], heading))
        return crates, headings

    def allowances(self):
        """Returns what checks/allowed.txt allows, by rule; a line is RULE NAME: REASON."""
        allowed = {}
        for line in self.text("checks/allowed.txt").splitlines() if self.is_there("checks/allowed.txt") else []:
            if not line.strip() or line.startswith("#"):
                continue
            found = re.match(r"(\w+) ([^:]+): *(\S.*)", line)
            if not found or found[1] not in ("lines", "debug", "functions", "tests", "machine", "word"):
                self.breach(f"checks/allowed.txt: no line of the form RULE NAME: REASON: {line}")
                continue
            allowed.setdefault(found[1], {})[found[2].strip()] = found[3]
        return allowed

    def sources(self, crate):
        """Returns the texts of a crate's code."""
        return [self.text(it) for it in self.files if it.startswith(f"crates/{crate}/src/") and it.endswith(".rt")]

    def functions(self, crate):
        """Returns how many functions are written in a crate beside its tests; the check counts derives and drops too."""
        found = r"^\s*(?:pub(?:\([a-z ]+\))? )?(?:const )?fn "
        return sum(len(re.findall(found, it, re.M)) for it in self.sources(crate) if "#[test]" not in it)


def edits(house):
    """At most four edits a crate, in at most thirty crates; each edits a body, and its text stands there once."""
    gate = {}
    for path in house.files:
        found = re.match(r"crates/(\w+)/must-fail/[^/]+\.edit$", path) or re.match(r"edits/(\w+)/[^/]+\.edit$", path)
        if not found:
            continue
        crate = found[1]
        if path.startswith("crates/"):
            gate[crate] = gate.get(crate, 0) + 1
        applies(house, path, crate)
    for crate, count in gate.items():
        if count > MOST_EDITS:
            house.breach(f"crates/{crate}/must-fail has {count} edits: the gate takes {MOST_EDITS} a crate, others stand under edits/{crate}")
    if len(gate) > MOST_CRATES_WITH_EDITS:
        house.breach(f"{len(gate)} crates have edits in must-fail: the gate takes {MOST_CRATES_WITH_EDITS}")


def applies(house, path, crate):
    """An edit edits bodies in src/, and each of its old texts stands there once."""
    if crate not in house.crates:
        return house.breach(f"{path}: {crate} is no crate of crates.txt")
    file, texts, old = None, {}, None
    for line in house.text(path).splitlines():
        if line.startswith("file: "):
            file = line[len("file: ") :].strip()
            if not file.startswith("src/") or not house.is_there(f"crates/{crate}/{file}"):
                return house.breach(f"{path}: {file} is no file of src/: an edit turns what a body does")
            texts.setdefault(file, house.text(f"crates/{crate}/{file}"))
        elif line.startswith("old: "):
            old = line[len("old: ") :]
        elif line.startswith("new:") and file and old is not None:
            count = texts[file].count(old)
            if count != 1:
                return house.breach(f"{path}: its old text stands {count} times in {file}, and not once: {old.strip()}")
            texts[file] = texts[file].replace(old, line[len("new:") :].removeprefix(" "))


def listing(house):
    """crates.txt has headings and each crate once under one; each crate has a folder and a README, and each folder is listed."""
    if not house.headings:
        house.breach("crates.txt has no headings: lines as '# Base'")
    for number, (crate, heading) in enumerate(house.lines):
        if crate in house.crates[:number]:
            house.breach(f"crates.txt lists {crate} twice")
        if house.headings and not heading:
            house.breach(f"crates.txt: {crate} stands under no heading")
        if not house.is_there(f"crates/{crate}"):
            house.breach(f"crates.txt lists {crate}, and there is no crates/{crate}")
        elif f"crates/{crate}/README.md" not in house.files:
            house.breach(f"crates/{crate} has no README.md")
    for folder in sorted({it.split("/")[1] for it in house.files if it.startswith("crates/")} - set(house.crates)):
        house.breach(f"crates/{folder} isn't listed in crates.txt")


def sizes(house):
    """Files that people write stay below 800 lines, and none is a link."""
    for path in house.files:
        if os.path.islink(f"{house.top}/{path}"):
            house.breach(f"{path} is a link")
        elif path.endswith(WRITTEN) or "." not in os.path.basename(path) and not re.search(r"/(data|stdin|stdout)(/|$)", path):
            count = house.text(path).count("\n")
            if count >= MOST_LINES and path not in house.allowed.get("lines", {}):
                house.breach(f"{path} has {count} lines, and not below {MOST_LINES}")


def debug_text(house):
    """derive(Debug) costs a function's proof each: it stands where the list says why."""
    used = set()
    for path in house.files:
        if path.endswith(".rt") and re.search(r"derive\([^)]*\bDebug\b", house.text(path)):
            used.add(path)
            if path not in house.allowed.get("debug", {}):
                house.breach(f"{path} derives Debug, and checks/allowed.txt has no reason for it")
    for path in sorted(set(house.allowed.get("debug", {})) - used):
        house.breach(f"checks/allowed.txt allows Debug in {path}, which doesn't derive it")


def functions(house):
    """A crate has fewer than 100 functions, since it is proved as a whole."""
    for crate in house.crates:
        is_allowed, count = crate in house.allowed.get("functions", {}), house.functions(crate)
        if count >= MOST_FUNCTIONS and not is_allowed:
            house.breach(f"crates/{crate} has {count} functions, and not below {MOST_FUNCTIONS}: split it by layers")
        if count < MOST_FUNCTIONS and is_allowed:
            house.breach(f"checks/allowed.txt allows many functions in {crate}, which has {count}")


def tests_apart(house):
    """A crate with tests is proved twice: in a crate of more than thirty functions tests stand beside them only where the list says why."""
    for crate in house.crates:
        has_tests = any("#[test]" in it for it in house.sources(crate)) and not crate.endswith("_tests")
        is_allowed, count = crate in house.allowed.get("tests", {}), house.functions(crate)
        asks = has_tests and count > MOST_FUNCTIONS_BESIDE_TESTS
        if asks and not is_allowed:
            house.breach(f"crates/{crate} has tests beside {count} functions: tests of a large crate stand in a crate of their own")
        if is_allowed and not asks:
            house.breach(f"checks/allowed.txt allows tests beside the functions of {crate}, where the rule asks for no leave")


def alternatives(path):
    """Returns the paths that braces give."""
    found = re.search(r"\{([^{}]*)\}", path)
    if not found:
        return [path]
    return [it for part in found[1].split(",") for it in alternatives(path[: found.start()] + part.strip() + path[found.end() :])]


def found_at(house, path, bases):
    """Returns the files or folders that a path names, told from one of the bases, with the ending of sources left out or not."""
    for base in bases:
        for ending in ("", ".antt", ".rt", ".md"):
            names = glob.glob(f"{house.top}/{base}{path.rstrip('/')}{ending}")
            if names:
                return names
    return []


def is_path(word):
    placeholder = re.search(r"\b(NAME|CRATE|PATH|FILE|F|COPY|KIT|MODULE|MESSAGE|JOB)\b", word)
    return "/" in word and re.fullmatch(r"\.?[\w./{},*-]+", word) and not placeholder and not word.startswith(("/", "./")) and "//" not in word


def paths(house):
    """What documents put in backquotes as a path is there, told from the page's crate, the top, or the crate that was named last in the line."""
    for page in documents(house):
        own = f"{os.path.dirname(page)}/" if page.startswith("crates/") else ""
        for number, line in enumerate(house.text(page).splitlines(), 1):
            near = own
            for word in re.findall(r"`([^`]+)`", line):
                crate = re.split(r"/|::", word.removeprefix("crates/"))[0]
                near = f"crates/{crate}/" if crate in house.crates else near
                for path in alternatives(word) if is_path(word) and word not in ("src/", "specs/", "proofs/", "must-fail/") else []:
                    if not path.startswith("out/") and not found_at(house, path, dict.fromkeys([own, near, "", "crates/"])):
                        house.breach(f"{page}:{number}: there is no {path}")


def documents(house):
    return [it for it in house.files if re.match(r"(README|docs/[^/]+|crates/\w+/README|bench/\w+/README|examples/README|checks/README)\.md$", it) and it != "docs/EDITS.md"]


def libraries_of_kit():
    """Returns the names of the kit's libraries, which stand beside the page that `rt doc` names, or None where there is no kit."""
    try:
        said = subprocess.run(["rt", "doc"], capture_output=True, text=True, check=True).stdout.strip()
        return {it.split(".")[0] for it in os.listdir(f"{os.path.dirname(said)}/rlibs")}
    except (OSError, subprocess.CalledProcessError):
        return None


def names(house):
    """A name with an underscore that a document of what stands here puts in backquotes is one of the code, of a crate or of a file."""
    known = set(house.crates) | set(house.allowed.get("word", {})) | (libraries_of_kit() or set())
    for path in house.files:
        known.update(re.findall(r"\w+", path))
        if path.endswith((".rt", ".antt")):
            known.update(re.findall(r"[A-Za-z_]\w*", house.text(path)))
    for page in documents(house):
        for number, line in enumerate(house.text(page).splitlines() if page != "docs/PROVING.md" else (), 1):
            for word in re.findall(r"`([A-Za-z_]\w*(?:::\w+)*)(?:\([^`]*\))?`", line):
                for name in word.split("::"):
                    if "_" in name and name not in known:
                        house.breach(f"{page}:{number}: {name} is no name of the code")


def crates_named(house):
    """A crate that a document names as one is there: in the crate table of README.md, at the way of data, and where a README says what its crate stands on."""
    kit = libraries_of_kit()
    known = set(house.crates) | kit if kit is not None else None
    rows = {}
    for line in house.text("README.md").splitlines() if "README.md" in house.files else []:
        cell = re.match(r"\| ((?:`\w+`(?:, )?)+) \|", line)
        for crate in re.findall(r"`(\w+)`", cell[1]) if cell else []:
            rows[crate] = rows.get(crate, 0) + 1
    for crate in sorted(set(rows) - set(house.crates) - {"run", "big", "eval", "sim", "dump"}):
        house.breach(f"README.md has a row for {crate}, which is no crate of crates.txt")
    for crate in house.crates if rows else []:
        if rows.get(crate) != 1:
            house.breach(f"README.md has {rows.get(crate, 'no')} rows for {crate}, and not one")
    for crate in house.crates:
        page = f"crates/{crate}/README.md"
        text = house.text(page) if page in house.files else ""
        for sentence in re.findall(r"(?:[Ii]t s|^S)tands on ((?:[^.]|\.(?=\w))*)\.", text, re.M):
            named = re.findall(r"`(\w+)`", sentence) or [it for it in re.findall(r"\b[a-z]+_[a-z_]+\b", sentence)]
            if crate in named:
                house.breach(f"{page}: the crate stands on itself")
            for other in named:
                if known is not None and other not in known and "_" in other:
                    house.breach(f"{page}: it stands on {other}, which is no crate here or of the kit")




def way_of_data(house):
    """The crates at the right of the way of data are there."""
    if "docs/ARCHITECTURE.md" not in house.files:
        return
    for number, line in enumerate(house.text("docs/ARCHITECTURE.md").splitlines(), 1):
        found = re.match(r" {4,}\S.*?\s{2,}((?:[a-z]\w*(?: \([^)]*\))?(?:, )?)+)$", line)
        for crate in re.findall(r"[a-z]\w*", re.sub(r"\([^)]*\)", "", found[1])) if found else []:
            if crate not in house.crates:
                house.breach(f"docs/ARCHITECTURE.md:{number}: {crate} is no crate of crates.txt")


def definitions(house):
    """Each definition of docs/DEFINITIONS.md stands in the file that its row names."""
    page = "docs/DEFINITIONS.md"
    for number, line in enumerate(house.text(page).splitlines() if page in house.files else [], 1):
        cells = [it.strip() for it in re.split(r"(?<!\\)\|", line)]
        if len(cells) < 5 or cells[1] in ("Name", "") or set(cells[1]) <= set("-"):
            continue
        files, folder = [], ""
        for part in re.split(r", (?![^{]*\})", cells[2].replace("`", "")):
            for path in alternatives(part):
                at = found_at(house, path, ["crates/", f"crates/{folder}/"])
                if not at:
                    house.breach(f"{page}:{number}: there is no {path}")
                files += at
                folder = os.path.dirname(path) if "/" in path and path.count("/") > 1 else folder or path
        texts = [it if os.path.isfile(it) else f"{it}/**" for it in files]
        said = "\n".join(house.text(os.path.relpath(it, house.top)) for text in texts for it in glob.glob(text, recursive=True) if it.endswith((".antt", ".rt")))
        for name in re.findall(rf"`({WORD})`", cells[1]):
            if files and not re.search(rf"(?<![\w'-]){re.escape(name)}(?![\w'-])", said):
                house.breach(f"{page}:{number}: {name} isn't in {cells[2]}")


def messages(house):
    """Each piece of text that the program says when it refuses stands in docs/MESSAGES.md."""
    page = "docs/MESSAGES.md"
    for path in ("crates/jit_text/specs/RefusalTexts.antt", "crates/jit_main/specs/Ends.antt"):
        for piece in re.findall(r'codes "([^"]*)"', house.text(path)) if {page, path} <= set(house.files) else []:
            if re.search(r"[a-z]", piece.replace("\\n", "")) and piece.replace("\\n", "").strip() not in house.text(page):
                house.breach(f"{page} says nothing of '{piece}', which {path} has")


def machine(house):
    """No text names a folder of the machine that it was made on."""
    for path in house.files:
        if re.match(r"(bench|examples)/|crates/\w+/data/", path):
            found = re.search(r"(?<![\w.])/(home|root|work|mnt|Users|var|tmp)/[\w./-]+", house.text(path))
            if found and path not in house.allowed.get("machine", {}):
                house.breach(f"{path} names {found[0]}, a place of the machine that made it")


RULES = (listing, edits, sizes, debug_text, functions, tests_apart, paths, names, crates_named, way_of_data, definitions, messages, machine)


def main(words):
    if len(words) > 1 or words and words[0].startswith("-"):
        print(__doc__, end="")
        return 0 if words[0] in ("-h", "--help") else 2
    house = House(os.path.realpath(words[0] if words else f"{os.path.dirname(os.path.realpath(__file__))}/.."))
    for rule in RULES:
        rule(house)
    for line in house.found:
        print(f"rules: {line}")
    if not house.found:
        print(f"rules: kept by {len(house.crates)} crates")
    return 1 if house.found else 0


if __name__ == "__main__":
    sys.exit(main(sys.argv[1:]))

"""The tables of `run`: sums and ratios, where the instructions go, and each module and function."""

import statistics

KINDS = ("stub, count, guard, lowering of sp", "constants (`lui`, `auipc`, `li`)", "moves", "loads and stores by sp", "other loads and stores",
         "branches", "jumps", "calls and returns", "products and divisions", "extensions", "other shifts", "compares into registers", "other arithmetic",
         "bytes moved by a built-in of the emulator")
SAID_OF_KINDS = """Instructions a unit, by kinds. Extensions are `sext.w`, `andi` by 255, and a shift to the left with one back by as much behind it.
Of LLVM's code the lowering of sp is other arithmetic, and where the text asks for a frame pointer, its frame is reached by s0 and not by sp."""
HEAD = """# Instructions that the corpus runs

By `{command}`: for each C file of `bench/corpus`, as clang 19 writes it at `-O0`, `-O1` and `-O2`, the RV64IM instructions that its listed calls run,
by the code of each level of this compiler and by that which llc 19 makes of the same text (`-march=riscv64 -mattr=+m`). A plain emulator counts them
and compares each answer with `eval`'s. A unit is one of the IR, and each call's number of units is shown by `eval`.

- Left out are texts with debug information, and those of `-O2` that are the same as those of `-O1`.
- Of this compiler's code everything counts: stubs, counts of entries, guards of the stack, and memory built-ins, which are loops over bytes.
- Of LLVM's code a call within reach is one `jal`, as a linker makes it. Where it calls `memcpy`, `memmove` or `memset`, an instruction a byte and one for
  the return are counted. `optnone` is taken out of the text, or each llc would stay at its `-O0` there.
- {levels}
"""


def summed(lists):
    return [sum(it) for it in zip(*lists)]


def columns_of(found):
    """Returns the columns that every module has; level 2 is level 1's code where no other is listed."""
    columns = [it for it in found[0].columns if all(it in module.columns for module in found)]
    return columns if "level 2" in columns else [columns[0], "level 2", *columns[1:]]


def kinds_of(module, column):
    return module.columns[column if column in module.columns else "level 1"]


def total(modules, column):
    """Returns the instructions of some modules, by kinds."""
    return summed(it for module in modules for it in kinds_of(module, column))


def units(modules):
    return sum(sum(it.units) for it in modules)


def table(head, rows):
    return ["| " + " | ".join(head) + " |", "|---|" + "---|" * (len(head) - 1), *("| " + " | ".join(it) + " |" for it in rows), ""]


def texts_of(found):
    """Returns the modules by how far clang optimised the text, and all."""
    levels = sorted({it.level for it in found})
    return [*((f"-{level}", [it for it in found if it.level == level]) for level in levels), ("all", found)]


def per_unit(modules, column):
    return sum(total(modules, column)) / units(modules)


def sums(found, columns):
    each_unit, each_call = [], []
    for text, modules in texts_of(found):
        calls = sum(len(it.calls) for it in modules)
        head, many = [text, f"{calls:,}", f"{units(modules):,}"], [sum(total(modules, it)) for it in columns]
        each_unit.append([*head, *(f"{it / units(modules):.2f}" for it in many)])
        each_call.append([*head, *(f"{it / calls:,.0f}" for it in many)])
    names = ["Text", "Calls", "Units", *columns]
    return ["## Instructions a unit", "", *table(names, each_unit), "## Instructions a call", "", *table(names, each_call)]


def ratios(found, columns):
    """Ratios of the sums, and the geometric means of the modules' ratios, where a long call weighs no more than a short one."""
    own = [it for it in columns if it.startswith("level")]
    pairs = [(a, b) for at, a in enumerate(own) for b in [*own[:at], *columns[len(own) :]]]
    names, of_sums, means = ["Text", *(f"{a} / {b}" for a, b in pairs)], [], []
    for text, modules in texts_of(found):
        of_sums.append([text, *(f"{per_unit(modules, a) / per_unit(modules, b):.2f}" for a, b in pairs)])
        each = [statistics.geometric_mean(per_unit([it], a) / per_unit([it], b) for it in modules) for a, b in pairs]
        means.append([text, *(f"{it:.2f}" for it in each)])
    return ["## Ratios", "", "Of the sums:", "", *table(names, of_sums), "Geometric means of the modules' own:", "", *table(names, means)]


def causes(found, columns):
    """Where the instructions go, by kinds, for each text."""
    page = ["## Where they go", "", SAID_OF_KINDS, ""]
    for text, modules in texts_of(found):
        all_units, many = units(modules), [total(modules, it) for it in columns]
        page += table([f"Text {text}", *columns], [[kind, *(f"{it[at] / all_units:.3f}" for it in many)] for at, kind in enumerate(KINDS)])
    return page


def each_module(found, columns):
    rows = []
    for it in found:
        rows.append([f"{it.name}.{it.level}", str(len(it.calls)), f"{sum(it.units):,}", *(f"{per_unit([it], column):.2f}" for column in columns)])
    return ["## Modules", "", "Instructions a unit.", "", *table(["Module", "Calls", "Units", *columns], rows)]


def each_function(found, columns):
    """The calls of each function over all texts: what one takes."""
    rows = {}
    for module in found:
        for at, call in enumerate(module.calls):
            rows.setdefault(f"{module.name} @{call.name}", []).append([module.units[at], *(sum(kinds_of(module, it)[at]) for it in columns)])
    shown = [[name, str(len(lists)), *(f"{it / len(lists):,.0f}" for it in summed(lists))] for name, lists in sorted(rows.items())]
    said = "Units and instructions a call, over all texts; what a function calls counts with it."
    return ["## Functions", "", said, "", *table(["Function", "Calls", "Units", *columns], shown)]


def page(found, command, has_picture):
    columns = columns_of(found)
    is_listed = all("level 2" in it.columns for it in found)
    crowded = sum(it.crowded for it in found)
    levels = "`dump` lists no level 2 yet, where the code is that of level 1, as its column says."
    if is_listed:
        levels = f"Functions that are crowded at a level, where the code of the level below stands: {crowded}."
    lines = [HEAD.format(command=command, levels=levels), *(["![Instructions a unit](code.svg)", ""] if has_picture else [])]
    for part in (sums, ratios, causes, each_module, each_function):
        lines += part(found, columns)
    return "\n".join(lines)


def bars(found):
    """Returns what a picture of bars takes."""
    texts = texts_of(found)
    series = [(it, [per_unit(some, it) for _, some in texts]) for it in columns_of(found)]
    return "Instructions run a unit of the IR, over the corpus", "instructions", [text for text, _ in texts], series

"""Memory that runs out: at drawn allocations by the kit, and page by page by the system."""

import os
import random
import re
import resource
import shutil

from program import swept, try_by_kit
from trial import command_of

EXAMPLES = ["add", "checksum", "hot", "refused", "undefined", "words"]
COMMANDS = [("eval", []), ("run", ["--workers", "2", "--harts", "2"]), ("sim", ["--steps", "50"]), ("run", ["--report", "--workers", "0"])]
NO_MEMORY = b"reopt: no memory"
MOST_ALLOCATIONS = 3000
PAGE = 4096


def cases(trial):
    """Writes the examples as rt try takes them: the module as a case, the list as a word of it; returns the folder and the flags."""
    folder = f"{trial.room}/cases"
    os.makedirs(folder, exist_ok=True)
    flags = []
    for name in EXAMPLES:
        shutil.copy(f"{trial.top}/examples/{name}.ll", f"{folder}/{name}.ll")
        with open(f"{folder}/{name}.ll.args", "w", encoding="utf-8") as file:
            file.write(f"{name}.calls\n")
        flags += ["--data", f"{name}.calls={trial.top}/examples/{name}.calls"]
    return folder, ["--seconds", "120", *flags]


def rows(out, err):
    """Returns of what rt try says each case's name, its status or none, its output and its messages."""
    outputs = dict(re.findall(rb"^== (\S+)\n((?:(?!== ).*\n)*)", out, re.M))
    found, messages = [], []
    for line in err.split(b"\n"):
        case = re.match(rb"case=(\S+) run=(\S+)(?: status=(\d+))?", line)
        if case:
            status = int(case[3]) if case[2] == b"ended" and case[3] else None
            found.append((case[1].decode(), status, outputs.get(case[1], b""), messages))
            messages = []
        elif line.startswith(b"reopt: "):
            messages.append(line)
    return found


def fault_of(status, out, messages, whole):
    """Says why what a run without memory came to mustn't be, or none; else it is refused, or right."""
    if status == 6:
        return "output or another line beside status 6" if out or messages != [NO_MEMORY] else None
    said = [it for it in whole.err.split(b"\n") if it]
    return None if (status, out, messages) == (whole.status, whole.out, said) else f"status {status}, and neither no memory nor the right answer"


def each_by_kit(trial):
    """Has each allocation of an example's run fail in turn; says how far that went, or none where the kit can't."""
    data = [it for name in ("words.ll", "words.calls") for it in ("--data", f"{name}={trial.top}/examples/{name}")]
    words = ["run", "words.ll", "words.calls", "--harts", "2", "--report"]
    lines, far = swept(trial, "--fail-alloc", words, data)
    for line in lines:
        trial.found(f"an allocation that fails: {line}", f"cd crates/reopt && rt try {' '.join(data)} --fail-alloc 1.. -- {' '.join(words)}")
    return None if far == "not in this kit" else f"by rt try --fail-alloc {far}"


def by_kit(trial, draws):
    """Has one allocation of each example fail, for as many of them as there is time for; says how many runs and how many refused ones."""
    count = refused = tries = 0
    while not tries or trial.left() > 0:
        command, options = COMMANDS[tries % len(COMMANDS)]
        at = int(MOST_ALLOCATIONS ** draws.random())
        folder, flags = cases(trial)
        words = [command, "{}", *options]
        _, out, err = try_by_kit(trial.top, [*flags, "--fail-alloc", str(at), "--cases", folder], words, trial.room)
        found = rows(out, err)
        if len(found) != len(EXAMPLES):
            return f"the kit tried nothing: {err.decode(errors='replace').strip()[-200:]!r}"
        for name, status, said, messages in found:
            files = [f"{trial.top}/examples/{name}", f"{trial.top}/examples/{name.removesuffix('.ll')}.calls"]
            fault = fault_of(status, said, messages, trial.program.run([command, *files, *options], 120))
            if fault:
                trial.found(f"allocation {at} of {name}: {fault}", f"cd crates/reopt && rt try --fail-alloc {at} -- {' '.join([command, *files, *options])}")
            count, refused = count + 1, refused + (status == 6)
        tries += 1
    return f"{count} runs with an allocation that failed, {refused} of which ended for want of memory"


def by_system(trial, draws):
    """Gives the program so many pages and no more, from what it starts with to what it needs."""
    until, surroundings = trial.left() / 2, {**os.environ, "MALLOC_TOP_PAD_": "0"}

    def run(words, pages):
        return trial.program.run(words, 60, limits=[(resource.RLIMIT_AS, PAGE * pages)], env=surroundings)

    def least(words, below, status, err):
        above = 1 << 22
        while above - below > 1:
            half = (above + below) // 2
            answer = run(words, half)
            below, above = (below, half) if (answer.status, answer.err) == (status, err) else (half, above)
        return above

    first = least(["nothing"], 0, 3, b"reopt: usage\n")
    if first > 1 << 20:
        return "the program has the kit's checks, so no pages are refused"
    count = refused = 0
    plans = [(command, options, name) for command, options in COMMANDS for name in EXAMPLES]
    draws.shuffle(plans)
    for at, (command, options, name) in enumerate(plans):
        words = [command, *[f"{trial.top}/examples/{name}.{it}" for it in ("ll", "calls")], *options]
        whole = trial.program.run(words, 120)
        last = least(words, first, whole.status, whole.err)
        pages = range(first, last + 8)
        for given in [first, *draws.sample(pages, min(len(pages), 200))]:
            if trial.left() < until and at:
                break
            answer = run(words, given)
            fault = fault_of(answer.status, answer.out, [it for it in answer.err.split(b"\n") if it], whole)
            count, refused = count + 1, refused + (answer.status == 6)
            if fault:
                trial.found(f"{given} pages of memory: {fault}; {answer.shown()}", f"(ulimit -v {given * 4}; MALLOC_TOP_PAD_=0 {command_of(words)})")
                break
    return f"{count} runs with few pages, {refused} of which ended for want of memory"


def growths(trial):
    draws = random.Random(trial.seed)
    said = by_system(trial, draws)
    return f"{said}; {each_by_kit(trial) or by_kit(trial, draws)}"

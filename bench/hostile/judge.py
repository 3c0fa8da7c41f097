"""What the program may answer: the lines of docs/MESSAGES.md, and answers that agree."""

import re

NAME = rb'@(?:[\w.$-]+|"[^"\n]*")'
WHAT = rb"(?:bytes|functions|globals|parameters|units|nodes|size)"
LINES = {
    2: [rb"module: syntax at (?P<at>\d+)",
        rb"module: (?:left out|name) at (?P<at>\d+): (?P<word>.+)",
        rb"module: limit bytes (?P<length>\d+)",
        rb"(?:module|verify): limit " + WHAT + rb" \d+",
        rb"verify: " + NAME + rb": block \d+ (?:is misshapen|jumps to the entry|has wrong phis)",
        rb"verify: " + NAME + rb": instruction \d+ (?:is out of range|has wrong types|calls " + NAME + rb" wrongly)",
        rb"verify: " + NAME + rb": value \d+ not assigned on(?: \d+)+",
        rb"image: needs \d+ bytes, has \d+",
        rb"calls: line (?P<line>\d+): (?:syntax|no such function|wrong arguments)",
        rb"calls: limit \d+"],
    7: [rb"code: needs (?P<needs>\d+) words, has (?P<has>\d+)"],
}
SETTLED = re.compile(rb"void|stack|true|false|-?\d+|0x[0-9a-f]+")
OPEN_ANSWERS = {"eval": (b"stack", b"not ended", b"undefined"), "run": (b"stack", b"fuel", b"fault"), "sim": (b"stack", b"fuel", b"fault")}


def fault_of_line(found, module, calls):
    """Says what is wrong with the numbers of a documented line, or none."""
    parts = found.groupdict()
    if parts.get("at") is not None:
        at = int(parts["at"])
        if at > len(module):
            return f"its place {at} is behind the text's {len(module)} bytes"
        word = parts.get("word")
        if word is not None and not module.startswith(word, at) and not (word == b"volatile" and module.startswith(b"true", at)):
            return f"{word[:40]!r} doesn't stand at {at}"
    if parts.get("length") is not None and int(parts["length"]) != len(module):
        return f"the text has {len(module)} bytes"
    if parts.get("line") is not None and not 1 <= int(parts["line"]) <= calls.count(b"\n") + 1:
        return "the list has no such line"
    if parts.get("needs") is not None and int(parts["needs"]) <= int(parts["has"]):
        return "it has what it needs"
    return None


def fault_of_refusal(answer, module, calls):
    """Says why an answer is no refusal of these texts in the documented form, or none."""
    if answer.out:
        return "a refusal beside output"
    for form in LINES.get(answer.status, []):
        found = re.fullmatch(rb"reopt: " + form + rb"\n", answer.err, re.S)
        if found:
            return fault_of_line(found, module, calls)
    return "a status or a line that docs/MESSAGES.md doesn't have for it"


def turns_of(calls):
    """Returns the turns of each call of a list."""
    found = []
    for line in calls.split(b"\n"):
        line = line.removesuffix(b"\r")
        if line and not line.startswith(b";"):
            turns = re.search(rb" turns (\d{1,40})$", line)
            found.append(int(turns[1]) if turns else 1000000)
    return found


def answers_of(answer, command):
    """Returns the lines' left sides and answers, or none where a line has another form."""
    lines = answer.out.split(b"\n")
    if lines.pop() != b"" or command == "sim" and not (lines and re.fullmatch(rb"versions \d+", lines.pop())):
        return None
    # (a name in quotes may have anything in it)
    found = [re.fullmatch(rb"(.+\)) = ([a-z]+(?: ended| \d+)?|-?\d+|0x[0-9a-f]+)", it, re.S) for it in lines]
    return [(it[1], it[2]) for it in found] if all(found) else None


def fault_of_answers(answer, command, calls):
    """Says why an answer of status 0 or 1 can't be, by itself, or none."""
    if answer.err:
        return "a line beside answers"
    rows = answers_of(answer, command)
    if rows is None or len(rows) != len(turns_of(calls)):
        return "its lines aren't those of the calls"
    is_open = any(it.startswith(OPEN_ANSWERS[command]) for _, it in rows)
    if is_open != (answer.status == 1):
        return "the status isn't that of its lines"
    return None


def fault_of(answer, command, module, calls):
    """Says why an answer of `eval`, `run` or `sim` can't be, by itself, or none."""
    if answer.status is None or answer.status < 0:
        return "no end within its time" if answer.status is None else "ended by a signal"
    return fault_of_answers(answer, command, calls) if answer.status < 2 else fault_of_refusal(answer, module, calls)


def is_right(wanted, got, turns):
    """Whether a machine's answer is right where this is the evaluation's."""
    if wanted == b"undefined":
        return True
    if wanted == b"not ended":
        return got == b"fault" or SETTLED.fullmatch(got) is not None or got == b"fuel %d" % (256 * turns)
    return got == wanted


def fault_of_both(wanted, got, command, calls):
    """Says why an answer under a command doesn't agree with the evaluation's, or none; each is no fault by itself."""
    if wanted.status == 2 or got.status == 2:
        return None if (wanted.status, wanted.err) == (got.status, got.err) else "another refusal than eval's"
    if got.status == 7:
        return None
    pairs = zip(answers_of(wanted, "eval"), answers_of(got, command), turns_of(calls))
    for (call, one), (same, other), turns in pairs:
        if call != same or not is_right(one, other, turns):
            return f"{same[:80]!r} is {other!r}, and {one!r} under eval"
    return None

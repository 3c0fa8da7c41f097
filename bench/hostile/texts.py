"""Texts that are cut, changed and spliced: each is a function of one number."""

import glob
import math
import os
import random
import re

from judge import turns_of
from trial import Pair, command_of

BYTES = [bytes([it]) for it in b"\0\n\r\t \"\\%@!#$()[]{}<>,=:;*-+.0129aix\x7f\x80\xff"]
MOST_LINES, MOST_CALLS, TURNS, MOST_TURNS = 40, 6, 3000, 1500000


def read(path):
    with open(path, "rb") as file:
        return file.read()


def at_turn(turn, size):
    """Returns a place below a size, so that so many turns come to each place once."""
    step = max(int(size * 0.618), 1)
    while math.gcd(step, size) != 1:
        step += 1
    return turn * step % size


def bounded(line):
    """Returns a line of a list with few turns, where it is a call that says none."""
    ends = re.search(rb"\)\r?$", line)
    return line.rstrip(b"\r") + b" turns %d" % TURNS if ends and not line.startswith(b";") else line


def calls_of(module):
    """Returns a call of each of a module's first functions that has plain types, for a module without a list."""
    lines = []
    for name, parameters in re.findall(rb'^define [^@\n]*(@(?:"[^"\n]*"|[\w.$-]+))\(([^)\n]*)\)', module, re.M):
        types = [it.split()[0] for it in parameters.split(b",") if it.split()]
        if all(re.fullmatch(rb"i\d+|ptr", it) for it in types):
            lines.append(name + b"(" + b", ".join(b"ptr null" if it == b"ptr" else it + (b" true" if it == b"i1" else b" 3") for it in types) + b")")
    return b"\n".join(lines[:MOST_CALLS]) + b"\n"


class Text:
    """A module and a list, one of them changed, how it was made, and the draws that are left of its number."""

    def __init__(self, module, calls, made, draws):
        self.module, self.calls, self.made, self.draws = module, calls, made, draws


class Texts:
    def __init__(self, top):
        folders = ("examples", "bench/texts", "bench/corpus", "crates/corpus/data")
        paths = [it for folder in folders for it in sorted(glob.glob(f"{top}/{folder}/*.ll") + glob.glob(f"{top}/{folder}/*.calls"))]
        self.names = {it: os.path.relpath(it, top) for it in paths}
        self.bytes = {it: read(it) for it in paths}
        self.modules = [it for it in paths if it.endswith(".ll")]
        self.lists = [it for it in paths if it.endswith(".calls") and self.module_of(it)]

    def list_of(self, module):
        path = re.sub(r"(\.O\d(-g)?)?\.ll$", ".calls", module)
        return path if path in self.bytes else None

    def module_of(self, calls):
        """Returns the first module that a list goes with, or for one without any the one that adds."""
        stem = calls.removesuffix(".calls")
        found = [it for it in self.modules if re.fullmatch(re.escape(stem) + r"(\.O\d(-g)?)?\.ll", it)]
        return found[0] if found else os.path.dirname(calls) + "/add.ll" if os.path.dirname(calls) + "/add.ll" in self.bytes else None

    def whole_list(self, path, draws, most):
        """Returns at most so many lines in a row of a list, with few turns."""
        lines = self.bytes[path].split(b"\n")
        first = draws.randrange(max(len(lines) - most, 0) + 1)
        return b"\n".join([bounded(it) for it in lines[first : first + most]])

    def text(self, number):
        """Returns the text of a number: each kind comes to each place of each file in turn."""
        draws = random.Random(number)
        is_list, kind, turn = number % 4 == 3, KINDS[number // 4 % len(KINDS)], number // 4 // len(KINDS)
        paths = self.lists if is_list else self.modules
        path, turn = paths[turn % len(paths)], turn // len(paths)
        if is_list:
            module, source = self.bytes[self.module_of(path)], self.whole_list(path, draws, MOST_LINES)
        else:
            module, source = None, self.bytes[path]
        changed, how = kind(self, source, turn, draws, is_list)
        made = f"{self.names[path]} {how}"
        if is_list:
            return Text(module, changed, made, draws)
        listed = self.list_of(path)
        calls = self.whole_list(listed, draws, MOST_CALLS) if listed else calls_of(source)
        return Text(changed, b"\n".join(bounded(it) for it in calls.split(b"\n")), made, draws)

    def cut(self, source, turn, draws, is_list):
        at = at_turn(turn, len(source) + 1)
        return source[:at], f"cut at {at}"

    def byte(self, source, turn, draws, is_list):
        if not source:
            return draws.choice(BYTES), "with one byte"
        place = at_turn(turn, len(source) * len(BYTES))
        at, byte = place % len(source), BYTES[place // len(source)]
        return source[:at] + byte + source[at + 1 :], f"with {byte!r} at {at}"

    def splice(self, source, turn, draws, is_list):
        other = draws.choice(self.lists if is_list else self.modules)
        behind = self.whole_list(other, draws, MOST_LINES) if is_list else self.bytes[other]
        at, on = draws.randrange(len(source) + 1), draws.randrange(len(behind) + 1)
        if draws.random() < 0.7:
            at, on = source.rfind(b"\n", 0, at) + 1, behind.rfind(b"\n", 0, on) + 1
        return source[:at] + behind[on:], f"up to {at} and {self.names[other]} from {on} on"

    def lines(self, source, turn, draws, is_list):
        """Leaves out, doubles and moves lines, or words between blanks."""
        between = draws.choice((b"\n", b" "))
        parts = source.split(between)
        for _ in range(draws.choice((1, 1, 2, 5))):
            at, to = draws.randrange(len(parts) + 1), draws.randrange(len(parts) + 1)
            part = parts[at : at + draws.choice((1, 1, 3))]
            if draws.random() < 0.6:
                del parts[at : at + len(part)]
            if draws.random() < 0.6:
                parts[to:to] = part
        what = "words" if between == b" " else "lines"
        return between.join(parts), f"with {what} left out, doubled and moved"


KINDS = (Texts.cut, Texts.byte, Texts.splice, Texts.lines)


class Tried:
    """What became of texts, counted, and how long evaluations and other commands took."""

    def __init__(self):
        self.count, self.answered, self.others, self.long = 0, 0, 0, 0
        self.evaluating = self.running = 0.0

    def told(self):
        return f"{self.count} texts, {self.answered} of which read and were answered, {self.others} of other commands beside eval, {self.long} left out for their turns"


def other_words(draws):
    """Draws a command beside eval, with its options."""
    harts = ["--harts", str(draws.choice((1, 1, 1, 1, 2, 2, 7, 16)))]
    if draws.random() < 0.2:
        return "sim", [*harts, "--draw", str(draws.randrange(1000)), "--steps", str(draws.choice((0, 50, 1000)))]
    return "run", [*harts, "--workers", str(draws.randrange(9))]


def try_text(trial, text, number, tried):
    """Evaluates a text, and runs it where runs took no more time than evaluations so far, or where it is refused and drawn."""
    tried.count += 1
    if sum(turns_of(text.calls)) > MOST_TURNS:
        tried.long += 1
        return
    pair = Pair(trial, text.module, text.calls, text.made, trial.again("texts", number))
    room = text.draws.choice(([], [], [], ["--room", "4096"], ["--room", "65536"]))
    answer = pair.run("eval", room)
    tried.evaluating += answer.seconds
    tried.answered += answer.status in (0, 1)
    command, options = other_words(text.draws)
    is_cheap = answer.status == 2 and text.draws.random() < 0.2
    if is_cheap or answer.status in (0, 1) and tried.running <= tried.evaluating:
        answer = pair.run(command, [*options, *room], 240)
        tried.running, tried.others = tried.running + answer.seconds, tried.others + 1
    elif answer.status == 2 and text.draws.random() < 0.2:
        tried.others += 1
        listing(trial, pair, answer)


def listing(trial, pair, wanted):
    """Lists the words of a text that eval refuses: its module is refused alike, or is none that is."""
    answer = trial.program.run(["dump", pair.paths[0]])
    is_of_module = wanted.err.startswith((b"reopt: module: ", b"reopt: verify: "))
    is_right = (answer.status, answer.out, answer.err) == (2, b"", wanted.err) if is_of_module else (answer.status, answer.err) == (0, b"")
    if not is_right:
        trial.found(f"{pair.made}: listed, {answer.shown()}, and evaluated, {wanted.err[:200]!r}", command_of(["dump", pair.paths[0]]), pair.paths[:1], pair.again)


def texts(trial):
    source, tried, number = Texts(trial.top), Tried(), trial.seed
    while not tried.count or trial.left() > 0:
        try_text(trial, source.text(number), number, tried)
        number += 1
    return f"{tried.told()}, seeds {trial.seed} to {number - 1}"

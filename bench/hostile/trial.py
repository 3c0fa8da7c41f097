"""What is tried: time, seed, and what was found."""

import os
import shlex
import shutil
import time

from judge import fault_of, fault_of_both

SECONDS = 60


class Trial:
    def __init__(self, top, program, room, seed, to):
        self.top, self.program, self.room, self.seed, self.to = top, program, room, seed, to
        self.start, self.until, self.count = time.monotonic(), 0, 0

    def begin(self, seconds, share):
        """Sets the time of a part: a share of what is left."""
        now = time.monotonic()
        self.until = now + max(self.start + seconds - now, 0) * share

    def left(self):
        return self.until - time.monotonic()

    def file(self, name, text):
        """Writes a file into the room and returns its path."""
        path = f"{self.room}/{name}"
        with open(path, "wb") as file:
            file.write(text)
        return path

    def found(self, what, command, files=(), again=""):
        """Shows what was found, and keeps its files and its command."""
        self.count += 1
        stem = f"seed{self.seed}-{self.count}"
        for path in files:
            name = f"{stem}{os.path.splitext(path)[1]}"
            if self.to:
                shutil.copy(path, f"{self.to}/{name}")
            command = command.replace(path, f"{self.to}/{name}" if self.to else name)
        lines = [f"{stem}: {what}", f"    {command}", *[f"    {it}" for it in [again] if it]]
        print("\n".join(lines), flush=True)
        if self.to:
            with open(f"{self.to}/found.txt", "a", encoding="utf-8") as file:
                file.write("\n".join([*lines, ""]))

    def again(self, part, seed):
        return f"(bench/hostile/run --only {part} --seed {seed} --minutes 1 makes it again)"


def command_of(words):
    return "./reopt " + shlex.join(words)


class Pair:
    """A module and a list as files, and what the commands answer of them."""

    def __init__(self, trial, module, calls, made, again=""):
        self.trial, self.module, self.calls, self.made, self.again = trial, module, calls, made, again
        self.paths = [trial.file("tried.ll", module), trial.file("tried.calls", calls)]
        self.wanted, self.fault = None, None

    def run(self, command, options=(), seconds=SECONDS):
        """Runs a command on both files, and tells what is wrong with its answer, or beside eval's where that came before."""
        words = [command, *self.paths, *options]
        answer = self.trial.program.run(words, seconds)
        fault = fault_of(answer, command, self.module, self.calls)
        if command == "eval":
            self.wanted = None if fault else answer
        elif not fault and self.wanted:
            fault = fault_of_both(self.wanted, answer, command, self.calls)
        self.fault = fault
        if fault:
            self.trial.found(f"{self.made}: {fault}; {answer.shown()}", command_of(words), self.paths, self.again)
        return answer

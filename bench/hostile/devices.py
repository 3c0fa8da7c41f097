"""Outputs that end, and files that can't be read or come piece by piece."""

import os
import re
import resource
import subprocess
import threading
import time

from program import swept
from texts import at_turn, read
from trial import command_of

# A command and its files from the examples, with its options.
COMMANDS = [("eval", ["words.ll", "words.calls"], []), ("dump", ["twice.ll"], []), ("run", ["words.ll", "words.calls"], ["--harts", "2"]),
            ("run", ["hot.ll", "hot.calls"], ["--report", "--workers", "0"]), ("sim", ["add.ll", "add.calls"], ["--steps", "50"])]


class Devices:
    def __init__(self, trial):
        self.trial, self.count = trial, 0
        self.out = f"{trial.room}/out"

    def files(self, names):
        return [f"{self.trial.top}/examples/{it}" for it in names]

    def compare(self, what, words, answer, status, out, err):
        """Finds an answer that isn't the one that is wanted; none is wanted of a stream that isn't looked at."""
        self.count += 1
        is_wanted = answer.status == status and out in (None, answer.out) and err in (None, answer.err)
        if not is_wanted:
            self.trial.found(f"{what}: {answer.shown()}, and not status {status}, {(out or b'')[:120]!r}, {err!r}", command_of(words))

    def cut(self, turn, words, whole):
        """Lets the output take so many bytes and no more: at both ends first, then at the places between in turn."""
        many = len(whole.out)
        if turn > many + 3:
            return
        at = {0: 0, 1: many, 2: max(many - 1, 0)}.get(turn, at_turn(turn, many))
        with open(self.out, "w+b") as file:
            # (the signal at a file that is too long is turned off in this process, and stays so in the program)
            answer = self.trial.program.run(words, limits=[(resource.RLIMIT_FSIZE, at)], stdout=file, restore_signals=False)
            file.seek(0)
            answer.out = file.read()
        self.compare(f"an output that takes {at} bytes", words, answer, whole.status if at == many else 5, whole.out[:at], b"")

    def full(self, words, whole):
        """Outputs that take nothing, that nobody reads, or that are closed; and the same for messages, which changes no status."""
        for what, path in (("/dev/full", "/dev/full"), ("a file to read from", os.devnull)):
            with open(path, "wb" if path == "/dev/full" else "rb") as file:
                self.compare(f"{what} as output", words, self.trial.program.run(words, stdout=file), 5, b"", b"")
                self.compare(f"{what} as error output", words, self.trial.program.run(words, stderr=file), whole.status, whole.out, None)
                self.compare(f"{what} as error output of a refusal", ["nothing"], self.trial.program.run(["nothing"], stderr=file), 3, b"", None)
        for is_turned_off in (True, False):
            ends = os.pipe()
            os.close(ends[0])
            answer = self.trial.program.run(words, stdout=ends[1], restore_signals=not is_turned_off)
            os.close(ends[1])
            self.compare(f"a pipe without a reader as output, its signal {'off' if is_turned_off else 'on'}", words, answer, 5, b"", b"")

    def closed(self, words, whole):
        """Streams that aren't open when the program begins: the files that it opens then may get their numbers."""
        before = [read(it) for it in words if os.path.isfile(it)]
        for stream, status in ((1, 5), (2, whole.status), (0, whole.status)):
            command = ["sh", "-c", f'exec "$0" "$@" {stream}{"<" if stream == 0 else ">"}&-', self.trial.program.path, *words]
            ran = subprocess.run(command, capture_output=True, stdin=subprocess.DEVNULL, timeout=60)
            wanted = whole.out if stream != 1 else b""
            self.count += 1
            if (ran.returncode, ran.stdout) != (status, wanted) or ran.stderr:
                self.trial.found(f"stream {stream} closed: status {ran.returncode}, {ran.stdout[:120]!r}, {ran.stderr[:200]!r}, and not status {status}", f"{command_of(words)} {stream}>&-")
        if before != [read(it) for it in words if os.path.isfile(it)]:
            self.trial.found("a file changed that was to be read", command_of(words))

    def missing(self, command, names, options):
        """Files that aren't there, are folders, or fail at the first read."""
        for at, name in enumerate(names):
            for bad in (f"{self.trial.room}/none", self.trial.room, "/proc/self/mem", "", "/dev/full/x", "x" * 5000):
                files = self.files(names)
                files[at] = bad
                words = [command, *files, *options]
                self.compare(f"{bad[:60]!r} in place of {name}", words, self.trial.program.run(words), 4, b"", f"reopt: cannot read {bad}\n".encode())
        words = [command, *self.files(names)[:-1], "/dev/zero", *options]
        line = b"reopt: module: limit bytes 4194305\n" if len(names) == 1 else None
        self.compare("a file without an end", words, self.trial.program.run(words), 2, b"", line)

    def pieces(self, turn, command, names, options, whole):
        """A file that comes in pieces, byte by byte first, which changes nothing; and one whose writer ends too early, which is a text that is cut."""
        at = turn % len(names)
        text, files = read(self.files(names)[at]), self.files(names)
        place = at_turn(turn // len(names), len(text) + 1)
        size = max(place, 1)
        answer, files[at] = self.fed(command, files, at, options, [text[it : it + size] for it in range(0, len(text), size)])
        self.compare(f"{names[at]} in pieces of {size} bytes", [command, *files, *options], answer, whole.status, whole.out, b"")
        kept, files[at] = self.fed(command, files, at, options, [text[:place]])
        files[at] = self.trial.file("cut", text[:place])
        told = self.trial.program.run([command, *files, *options])
        self.compare(f"{names[at]} of which {place} bytes come", [command, *files, *options], kept, told.status, told.out, told.err)

    def fed(self, command, files, at, options, pieces):
        """Runs a command with one file as a pipe that gets these pieces; returns its answer and the pipe's name."""
        pipe = f"{self.trial.room}/pipe"
        os.mkfifo(pipe)

        def feed():
            try:
                with open(pipe, "wb", buffering=0) as file:
                    for piece in pieces:
                        file.write(piece)
                        time.sleep(0.0003)
            except BrokenPipeError:
                pass

        feeder = threading.Thread(target=feed, daemon=True)
        feeder.start()
        answer = self.trial.program.run([command, *files[:at], pipe, *files[at + 1 :], *options])
        # (one that the program never opened is let go)
        os.close(os.open(pipe, os.O_RDONLY | os.O_NONBLOCK))
        feeder.join()
        os.remove(pipe)
        return answer, pipe


def by_kit(trial):
    """Has each read and write of a run fail or come short in turn, where the kit can; says how far that went."""
    data = [it for name in ("words.ll", "words.calls") for it in ("--data", f"{name}={trial.top}/examples/{name}")]
    words, said = ["run", "words.ll", "words.calls", "--report"], []
    for flag in ("--fail-io", "--short-io"):
        lines, far = swept(trial, flag, words, data)
        for line in lines:
            trial.found(f"{flag}: {line}", f"cd crates/reopt && rt try {' '.join(data)} {flag} 1.. -- {' '.join(words)}")
        said.append(f"{flag} {far}")
    return ", ".join(said)


def devices(trial):
    tried, rounds, turn = Devices(trial), [], 0
    for command, names, options in COMMANDS:
        words = [command, *tried.files(names), *options]
        whole = trial.program.run(words, 120)
        if whole.status not in (0, 1) or whole.err or not re.fullmatch(rb"(?:.*\n)+", whole.out):
            trial.found(f"an example: {whole.shown()}", command_of(words))
            continue
        tried.full(words, whole)
        tried.closed(words, whole)
        tried.missing(command, names, options)
        rounds.append((words, command, names, options, whole))
    most = max((len(it[-1].out) for it in rounds), default=0)
    half = trial.left() / 2
    while turn <= most + 3 and (turn < 3 or trial.left() > half):
        for words, command, names, options, whole in rounds:
            tried.cut(turn, words, whole)
            tried.pieces(turn, command, names, options, whole)
        turn += 1
    return f"{tried.count} tries, outputs cut at {min(turn, most)} of {most} places of the longest; by rt try {by_kit(trial)}"
